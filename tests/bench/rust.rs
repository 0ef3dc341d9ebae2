//! Work whose instructions are counted, the Rust's side: `bench KIND WIDTH COUNT SPACING TIMES`, the same work as
//! the program `bench` of crates/ does, by the Rust's own calls.

use tantivy_bitpacker::{BitPacker, BitUnpacker, BlockedBitpacker};

/// How far apart two reads are, so that they jump about in the column.
const STRIDE: u32 = 1543;

/// Every spacing-th value is 1.
fn value_at(i: usize, spacing: usize) -> u64 {
    u64::from(spacing != 0 && i % spacing == 0)
}

fn fill(width: u8, count: usize, spacing: usize, bytes: &mut Vec<u8>) {
    bytes.clear();
    let mut packer = BitPacker::new();
    for i in 0..count {
        packer
            .write(value_at(i, spacing), width, bytes)
            .expect("a vector takes every write");
    }
    packer.close(bytes).expect("a vector takes every write");
}

fn pack(width: u8, count: usize, spacing: usize, times: usize) -> u64 {
    let mut bytes = Vec::with_capacity(400_064);
    let mut sum = 0;
    for i in 0..times {
        fill(width, count, spacing + i % 2, &mut bytes);
        sum += bytes.len() as u64;
    }
    sum
}

fn get(unpacker: BitUnpacker, data: &[u8], count: u32) -> u64 {
    let mut sum = 0u64;
    let mut index = 0;
    for _ in 0..count {
        sum = sum.wrapping_add(unpacker.get(index, data));
        let far = index + STRIDE;
        index = if far >= count { far - count } else { far };
    }
    sum
}

fn ranges(unpacker: BitUnpacker, data: &[u8], count: u32, output: &mut [u64]) -> u64 {
    let step = output.len() as u32;
    let mut sum = 0u64;
    for i in 0..count / step {
        unpacker.get_range(i * step, data, output);
        sum = sum.wrapping_add(output[0]);
    }
    sum
}

fn search(unpacker: BitUnpacker, data: &[u8], count: u32, positions: &mut Vec<u32>) -> u64 {
    unpacker.get_ids_for_value_range(1..=1, 0..count, data, positions);
    positions.len() as u64
}

fn column(kind: u64, width: u8, count: usize, spacing: usize, times: usize) -> u64 {
    let mut data = Vec::new();
    fill(width, count, spacing, &mut data);
    // The Rust reads whole words: eight bytes follow a column that it reads.
    data.extend([0; 8]);
    let unpacker = BitUnpacker::new(width);
    let mut output = vec![0; if kind == 2 { 64 } else { 1_000 }];
    let mut positions = Vec::with_capacity(400_064);
    let mut sum = 0u64;
    for _ in 0..times {
        sum = sum.wrapping_add(match kind {
            1 => get(unpacker, &data, count as u32),
            4 => search(unpacker, &data, count as u32, &mut positions),
            _ => ranges(unpacker, &data, count as u32, &mut output),
        });
    }
    sum
}

fn store_of(count: usize, spacing: usize) -> BlockedBitpacker {
    let mut store = BlockedBitpacker::new();
    for i in 0..count {
        store.add(value_at(i, spacing));
    }
    store
}

fn add(count: usize, spacing: usize, times: usize) -> u64 {
    let mut sum = 0u64;
    for _ in 0..times {
        let store = store_of(count, spacing);
        sum = sum.wrapping_add(store.get(0));
    }
    sum
}

/// What the Rust has for a range of a store and for a search of it: iterating, and comparing.
fn store(kind: u64, count: usize, spacing: usize, times: usize) -> u64 {
    let store = store_of(count, spacing);
    let mut positions: Vec<u32> = Vec::with_capacity(400_064);
    let mut output: Vec<u64> = Vec::with_capacity(400_064);
    let mut sum = 0u64;
    for _ in 0..times {
        if kind == 6 {
            output.clear();
            output.extend(store.iter());
            sum = sum.wrapping_add(output.iter().step_by(1_000).sum());
        } else {
            positions.clear();
            for (id, value) in store.iter().enumerate() {
                if (1..=1).contains(&value) {
                    positions.push(id as u32);
                }
            }
            sum = sum.wrapping_add(positions.len() as u64);
        }
    }
    sum
}

fn main() {
    let numbers: Vec<u64> = std::env::args()
        .skip(1)
        .map(|word| word.parse().expect("the arguments are numbers"))
        .collect();
    let [kind, width, count, spacing, times] = numbers[..] else {
        panic!("bench KIND WIDTH COUNT SPACING TIMES");
    };
    let (width, count) = (width as u8, count as usize);
    let (spacing, times) = (spacing as usize, times as usize);
    let sum = match kind {
        0 => pack(width, count, spacing, times),
        1..=4 => column(kind, width, count, spacing, times),
        // The Rust's `add` takes its store by reference: it stands beside both forms of the port's.
        5 | 8 => add(count, spacing, times),
        _ => store(kind, count, spacing, times),
    };
    println!("{sum}");
}
