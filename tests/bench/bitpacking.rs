//! Stands in for the outside crate `bitpacking` where instructions are counted: the same decoder of 32 values as
//! `tests/oracle/standin` has, by words and with each width compiled for itself, as that crate's own is.

pub trait BitPacker {
    const BLOCK_LEN: usize;

    /// Decodes a block and answers how many bytes it took.
    fn decompress(&self, compressed: &[u8], decompressed: &mut [u32], num_bits: u8) -> usize;
}

pub struct BitPacker1x;

impl BitPacker for BitPacker1x {
    const BLOCK_LEN: usize = 32;

    fn decompress(&self, compressed: &[u8], decompressed: &mut [u32], num_bits: u8) -> usize {
        let decode = DECODERS[usize::from(num_bits)];
        let values = (&mut decompressed[..Self::BLOCK_LEN]).try_into();
        decode(compressed, values.expect("a block has 32 values"));
        usize::from(num_bits) * Self::BLOCK_LEN / 8
    }
}

type Decoder = fn(&[u8], &mut [u32; 32]);

/// The decoder of each width.
const DECODERS: [Decoder; 33] = [
    decode::<0>,
    decode::<1>,
    decode::<2>,
    decode::<3>,
    decode::<4>,
    decode::<5>,
    decode::<6>,
    decode::<7>,
    decode::<8>,
    decode::<9>,
    decode::<10>,
    decode::<11>,
    decode::<12>,
    decode::<13>,
    decode::<14>,
    decode::<15>,
    decode::<16>,
    decode::<17>,
    decode::<18>,
    decode::<19>,
    decode::<20>,
    decode::<21>,
    decode::<22>,
    decode::<23>,
    decode::<24>,
    decode::<25>,
    decode::<26>,
    decode::<27>,
    decode::<28>,
    decode::<29>,
    decode::<30>,
    decode::<31>,
    decode::<32>,
];

fn decode<const WIDTH: usize>(bytes: &[u8], values: &mut [u32; 32]) {
    let bytes = &bytes[..4 * WIDTH];
    let mask = u32::MAX.checked_shr(32 - WIDTH as u32).unwrap_or(0);
    for (i, value) in values.iter_mut().enumerate() {
        *value = bits_at::<WIDTH>(bytes, i * WIDTH) & mask;
    }
}

/// The bits from a place on: the word in which they start, and where they reach into it the next.
fn bits_at<const WIDTH: usize>(bytes: &[u8], at: usize) -> u32 {
    if WIDTH == 0 {
        return 0;
    }
    let shift = at % 32;
    let low = word(bytes, at / 32) >> shift;
    if shift + WIDTH <= 32 {
        return low;
    }
    low | word(bytes, at / 32 + 1) << (32 - shift)
}

fn word(bytes: &[u8], i: usize) -> u32 {
    let four = bytes[4 * i..4 * i + 4].try_into();
    u32::from_le_bytes(four.expect("a word has four bytes"))
}
