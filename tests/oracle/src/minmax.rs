//! The lowest and the highest of numbers, and of floats, which are told by their patterns: lists of the lengths
//! at which a block is empty, nearly full and full, with the values that an order can get wrong.

use std::io::{self, Write};

use tantivy_bitpacker::minmax;

use crate::draw::Draw;
use crate::line::{Kind, Line};

/// The lengths around the ends of a block of 128.
const LENGTHS: [u64; 6] = [0, 1, 2, 127, 128, 129];

pub fn write_u64(count: u64, mut draw: Draw, out: &mut impl Write) -> io::Result<()> {
    let mut edges = edges_u64().into_iter();
    for _ in 0..count {
        let list = edges.next().unwrap_or_else(|| random_u64(&mut draw));
        let both = minmax(list.iter().copied());
        line_of(Kind::MinMax, list, both).write(out)?;
    }
    Ok(())
}

pub fn write_f64(count: u64, mut draw: Draw, out: &mut impl Write) -> io::Result<()> {
    let mut edges = edges_f64().into_iter();
    for _ in 0..count {
        let list = edges.next().unwrap_or_else(|| random_f64(&mut draw));
        let both = minmax(list.iter().map(|pattern| f64::from_bits(*pattern)));
        assert!(both.is_none_or(|(lowest, highest)| !lowest.is_nan() && !highest.is_nan()));
        let patterns = both.map(|(lowest, highest)| (lowest.to_bits(), highest.to_bits()));
        line_of(Kind::MinMaxOfFloats, list, patterns).write(out)?;
    }
    Ok(())
}

fn line_of(kind: Kind, list: Vec<u64>, both: Option<(u64, u64)>) -> Line {
    match both {
        None => Line::new(kind, list, [0]),
        Some((lowest, highest)) => Line::new(kind, list, [1, lowest, highest]),
    }
}

/// At each length: all equal, rising, falling, and the two ends of u64 at either end of the list.
fn edges_u64() -> Vec<Vec<u64>> {
    let mut lists = Vec::new();
    for length in LENGTHS {
        lists.push(vec![0; length as usize]);
        lists.push(vec![u64::MAX; length as usize]);
        lists.push((0..length).map(|i| 1000 + i).collect());
        lists.push((0..length).map(|i| u64::MAX - i).collect());
        lists.push(
            (0..length)
                .map(|i| if i == 0 { u64::MAX } else { 5 })
                .collect(),
        );
        lists.push(
            (0..length)
                .map(|i| if i + 1 == length { 0 } else { 5 })
                .collect(),
        );
    }
    lists
}

/// Half of the lists are short, and the others around a block's length or of any length up to 300.
fn length(draw: &mut Draw) -> u64 {
    match draw.below(4) {
        0 | 1 => draw.below(9),
        2 => draw.one_of(&LENGTHS),
        _ => draw.below(301),
    }
}

/// Values of one width above a base, so that ranges are small and large.
fn random_u64(draw: &mut Draw) -> Vec<u64> {
    let base = draw.any_width();
    let spread = draw.any_width();
    (0..length(draw))
        .map(|_| base.saturating_add(draw.word() & mask(spread)))
        .collect()
}

/// As many low ones as n has bits.
fn mask(n: u64) -> u64 {
    u64::MAX.checked_shr(n.leading_zeros()).unwrap_or(0)
}

/// NaNs with either sign, quiet and signalling.
const NANS: [u64; 6] = [
    0x7ff8_0000_0000_0000,
    0xfff8_0000_0000_0000,
    0x7ff0_0000_0000_0001,
    0xfff0_0000_0000_0001,
    0x7fff_ffff_ffff_ffff,
    0xffff_ffff_ffff_ffff,
];

/// Zeros, ones, infinities, the largest, and the smallest normal and subnormal numbers, with either sign.
const NUMBERS: [u64; 14] = [
    0x0000_0000_0000_0000,
    0x8000_0000_0000_0000,
    0x3ff0_0000_0000_0000,
    0xbff0_0000_0000_0000,
    0x7ff0_0000_0000_0000,
    0xfff0_0000_0000_0000,
    0x7fef_ffff_ffff_ffff,
    0xffef_ffff_ffff_ffff,
    0x0010_0000_0000_0000,
    0x8010_0000_0000_0000,
    0x000f_ffff_ffff_ffff,
    0x800f_ffff_ffff_ffff,
    0x0000_0000_0000_0001,
    0x8000_0000_0000_0001,
];

/// At each length: only NaN, and one number among NaNs; then every pair of the values above, in both orders.
fn edges_f64() -> Vec<Vec<u64>> {
    let mut lists = Vec::new();
    for length in LENGTHS {
        lists.push((0..length).map(|i| NANS[i as usize % NANS.len()]).collect());
        lists.push(
            (0..length)
                .map(|i| if i + 1 == length { NUMBERS[3] } else { NANS[0] })
                .collect(),
        );
    }
    let all: Vec<u64> = NANS.into_iter().chain(NUMBERS).collect();
    for first in &all {
        lists.push(vec![*first]);
        for second in &all {
            lists.push(vec![*first, *second]);
        }
    }
    lists
}

/// Any pattern, the special values, the two zeros alone, numbers close to each other, or all of these.
fn random_f64(draw: &mut Draw) -> Vec<u64> {
    let sort = draw.below(5);
    let near = draw.word();
    (0..length(draw)).map(|_| float(draw, sort, near)).collect()
}

fn float(draw: &mut Draw, sort: u64, near: u64) -> u64 {
    match sort {
        0 => draw.word(),
        1 => draw.one_of(&NUMBERS),
        2 => draw.one_of(&NUMBERS[..2]),
        3 => near ^ draw.below(4),
        _ => {
            let other = draw.below(4);
            if draw.below(4) == 0 {
                draw.one_of(&NANS)
            } else {
                float(draw, other, near)
            }
        }
    }
}
