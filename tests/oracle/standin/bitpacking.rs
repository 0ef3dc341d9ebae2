//! Stands in for the outside crate `bitpacking`, of which the Rust uses one decoder of 32 values. It goes
//! by the bit rule alone: value i at width w is bits i * w to i * w + w - 1, least byte first.

pub trait BitPacker {
    const BLOCK_LEN: usize;

    /// Decodes a block and answers how many bytes it took.
    fn decompress(&self, compressed: &[u8], decompressed: &mut [u32], num_bits: u8) -> usize;
}

pub struct BitPacker1x;

impl BitPacker for BitPacker1x {
    const BLOCK_LEN: usize = 32;

    fn decompress(&self, compressed: &[u8], decompressed: &mut [u32], num_bits: u8) -> usize {
        let width = usize::from(num_bits);
        assert!(width <= 32);
        for (i, value) in decompressed[..Self::BLOCK_LEN].iter_mut().enumerate() {
            *value = (0..width).fold(0, |sum, k| sum | bit(compressed, i * width + k) << k);
        }
        width * Self::BLOCK_LEN / 8
    }
}

fn bit(bytes: &[u8], at: usize) -> u32 {
    u32::from(bytes[at / 8] >> (at % 8) & 1)
}
