//! Values of 32 bits, of which the ids of those in an interval are kept. The answer has how many they are, then
//! every place of the slice: the Rust cuts the rest off, and in the port it stays as it was.

use std::io::{self, Write};

use crate::draw::{Draw, spread};
use crate::line::{Kind, Line};

/// The Rust's own file, which its crate keeps to itself. `build` says where the crate is.
mod scalar {
    include!(concat!(env!("CRATE"), "/src/filter_vec/scalar.rs"));
}

pub struct Filter {
    pub lowest: u32,
    pub highest: u32,
    pub offset: u32,
    pub values: Vec<u32>,
}

impl Filter {
    pub fn by_the_rust(&self) -> Vec<u32> {
        let mut output = self.values.clone();
        scalar::filter_vec_in_place(self.lowest..=self.highest, self.offset, &mut output);
        output
    }

    /// The step, where these are the ids.
    pub fn line(&self, ids: &[u32]) -> Line {
        let wide = |words: &[u32]| words.iter().copied().map(u64::from).collect::<Vec<_>>();
        let arguments = [
            wide(&[self.lowest, self.highest, self.offset]),
            wide(&self.values),
        ]
        .concat();
        let rest = &self.values[ids.len()..];
        let answer = [vec![0, ids.len() as u64], wide(ids), wide(rest)].concat();
        Line::new(Kind::Filter, arguments, answer)
    }
}

/// The lengths around the eight values that a vector filter takes at once, and others.
const LENGTHS: [u64; 11] = [0, 1, 2, 7, 8, 9, 15, 16, 17, 64, 100];

/// The most values, so that a line has no more than 8,192 numbers.
const MOST_VALUES: u64 = 4_000;

pub fn write(count: u64, mut draw: Draw, out: &mut impl Write) -> io::Result<()> {
    let mut edges = spread(edges(&mut draw), count);
    for _ in 0..count {
        let filter = edges.next().unwrap_or_else(|| random(&mut draw));
        filter.line(&filter.by_the_rust()).write(out)?;
    }
    Ok(())
}

/// Every length with every sort of interval, from the first id, from any, and where the last id is the
/// largest there is.
fn edges(draw: &mut Draw) -> Vec<Filter> {
    let mut cases = Vec::new();
    for length in LENGTHS {
        for interval in 0..INTERVALS {
            for offset in 0..OFFSETS {
                let bits = draw.below(33) as u8;
                cases.push(filter_of(draw, length, bits, interval, offset));
            }
        }
    }
    cases
}

fn random(draw: &mut Draw) -> Filter {
    let length = match draw.below(2_000) {
        0 => draw.below(MOST_VALUES + 1),
        n if n % 2 == 0 => draw.below(100),
        _ => draw.below(20),
    };
    let bits = draw.below(33) as u8;
    let interval = draw.below(INTERVALS);
    let offset = draw.below(OFFSETS);
    filter_of(draw, length, bits, interval, offset)
}

/// How many sorts of intervals and of offsets there are.
const INTERVALS: u64 = 6;
const OFFSETS: u64 = 3;

fn filter_of(draw: &mut Draw, length: u64, bits: u8, interval: u64, offset: u64) -> Filter {
    let values: Vec<u32> = (0..length).map(|_| draw.of_width(bits) as u32).collect();
    let met = match values.len() {
        0 => 0,
        length => values[draw.below(length as u64) as usize],
    };
    let other = draw.of_width(bits) as u32;
    let (lowest, highest) = match interval {
        0 => (0, u32::MAX),
        1 => (met, met),
        2 => (met.min(other), met.max(other)),
        // no value lies in it
        3 => (met.max(other).max(1), met.min(other).saturating_sub(1)),
        4 => (0, met),
        _ => (met, u32::MAX),
    };
    let largest = (1 << 32) - length.max(1);
    let offset = match offset {
        0 => 0,
        1 => largest,
        _ => draw.below(largest + 1),
    } as u32;
    Filter {
        lowest,
        highest,
        offset,
        values,
    }
}
