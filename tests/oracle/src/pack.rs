//! A packer that writes values of mixed widths, with flushes anywhere among them. The port is lent so many bytes
//! for each behind what was emitted before; at the end every byte of the area is looked at.

use std::io::{self, Write};

use tantivy_bitpacker::BitPacker;

use crate::draw::{Draw, spread};
use crate::line::{self, Kind, Line};

/// The fields of a new packer.
pub const NEW: [u64; 2] = [0, 0];

#[derive(Clone, Copy)]
pub enum Asked {
    Write { value: u64, width: u8 },
    Flush,
}

/// What was asked, how many bytes were lent for it, and how many it emitted or the number of its refusal.
pub struct Step {
    pub asked: Asked,
    pub room: usize,
    pub emitted: Result<u64, u64>,
}

/// The steps of a packer with these fields, in an area in which every step has its room, and the area's bytes
/// then.
pub fn lines(packer: [u64; 2], steps: &[Step], stream: &[u8]) -> Vec<Line> {
    let mut taken = vec![match packer {
        NEW => Line::new(Kind::NewPacker, [], [0]),
        forged => Line::new(Kind::ForgePacker, forged, [0]),
    }];
    let (mut emitted, mut lent) = (0, 0);
    for step in steps {
        lent = lent.max(emitted + step.room);
        taken.push(step.line());
        emitted += step.emitted.unwrap_or(0) as usize;
    }
    assert_eq!(emitted, stream.len());
    let bytes = line::each_byte(stream, lent);
    taken.push(Line::new(Kind::Bytes, [], bytes));
    let mut lines = line::lend(lent, 0);
    lines.extend(taken);
    lines
}

impl Step {
    fn line(&self) -> Line {
        let room = self.room as u64;
        let answer = match self.emitted {
            Ok(emitted) => vec![0, emitted],
            Err(refusal) => vec![refusal],
        };
        match self.asked {
            Asked::Write { value, width } => {
                let arguments = [room, u64::from(width), value];
                Line::new(Kind::PackerWrites, arguments, answer)
            }
            Asked::Flush => Line::new(Kind::PackerFlushes, [room], answer),
        }
    }
}

pub fn write(count: u64, mut draw: Draw, out: &mut impl Write) -> io::Result<()> {
    let mut edges = spread(edges(&mut draw), count);
    for _ in 0..count {
        let steps = edges.next().unwrap_or_else(|| random(&mut draw));
        write_case(&steps, &mut draw, out)?;
    }
    Ok(())
}

/// Half of the steps are lent exactly as many bytes as they emit.
fn write_case(all: &[Asked], draw: &mut Draw, out: &mut impl Write) -> io::Result<()> {
    let mut packer = BitPacker::new();
    let mut stream = Vec::new();
    let mut steps = Vec::new();
    for &asked in all {
        let before = stream.len();
        match asked {
            Asked::Write { value, width } => packer.write(value, width, &mut stream)?,
            Asked::Flush => packer.flush(&mut stream)?,
        }
        let emitted = (stream.len() - before) as u64;
        let room = (emitted + draw.below(2) * draw.below(20)) as usize;
        steps.push(Step {
            asked,
            room,
            emitted: Ok(emitted),
        });
    }
    line::write(&lines(NEW, &steps, &stream), out)
}

fn largest(width: u8) -> u64 {
    u64::MAX.checked_shr(64 - u32::from(width)).unwrap_or(0)
}

/// For every pair of widths: the first is held, the second completes the word or does not; then a flush.
/// Then runs at one width, of the largest value and of 1, and nothing but flushes.
fn edges(draw: &mut Draw) -> Vec<Vec<Asked>> {
    let mut lists = vec![vec![], vec![Asked::Flush], vec![Asked::Flush, Asked::Flush]];
    for width in 0..=64 {
        for value in [largest(width), largest(width).min(1)] {
            lists.push(
                (0..130)
                    .map(|_| Asked::Write { value, width })
                    .chain([Asked::Flush])
                    .collect(),
            );
        }
    }
    for first in 0..=64 {
        for second in 0..=64 {
            lists.push(vec![
                Asked::Write {
                    value: draw.of_width(first),
                    width: first,
                },
                Asked::Write {
                    value: largest(second),
                    width: second,
                },
                Asked::Flush,
                Asked::Write { value: 5, width: 3 },
            ]);
        }
    }
    lists
}

/// Short and long lists, of one width, of two, of narrow ones or of any, with no flush, few or many.
fn random(draw: &mut Draw) -> Vec<Asked> {
    let length = match draw.below(4) {
        0 => draw.below(8),
        1 | 2 => draw.below(40),
        _ => draw.below(200),
    };
    let widths = [draw.below(65), draw.below(65)];
    let sort = draw.below(4);
    let flushes = draw.one_of(&[3, 20, 1 << 40]);
    (0..length)
        .map(|_| {
            if draw.below(flushes) == 0 {
                return Asked::Flush;
            }
            let width = match sort {
                0 => widths[0],
                1 => draw.one_of(&widths),
                2 => draw.below(9),
                _ => draw.below(65),
            } as u8;
            Asked::Write {
                value: draw.of_width(width),
                width,
            }
        })
        .collect()
}
