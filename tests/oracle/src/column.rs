//! Columns of one width, drawn and packed by the Rust's own packer, and what is asked of them: a value, a range
//! or a search. The column's bytes are lent, then come the unpacker that `new` makes for the width and the
//! question, whose answer's first number is 0 because the Rust refuses nothing.

use std::io::{self, Write};

use tantivy_bitpacker::{BitPacker, BitUnpacker};

use crate::draw::{Draw, spread};
use crate::line::{self, Kind, Line};

/// Every width that an unpacker takes.
pub fn legal_widths() -> impl Iterator<Item = u8> {
    (0..=56).chain([64])
}

/// The lengths of data around which an eight-byte load becomes partial.
const DATA_LENGTHS: [u64; 8] = [0, 1, 7, 8, 9, 15, 16, 17];

/// The counts around which a range read changes its way through the values.
const RANGE_COUNTS: [u64; 14] = [0, 1, 3, 4, 5, 7, 8, 9, 31, 32, 33, 63, 64, 65];

/// The most ids of a search, so that the column has no more bytes than can be lent.
const MOST_IDS: u64 = 4_000;

struct Column {
    width: u8,
    data: Vec<u8>,
}

impl Column {
    /// Any bytes are a column of any width; how many values lie in them. At width 0 any number does:
    /// few enough are asked for.
    fn values(&self) -> u64 {
        match self.width {
            0 => 100,
            width => 8 * self.data.len() as u64 / u64::from(width),
        }
    }

    fn unpacker(&self) -> BitUnpacker {
        BitUnpacker::new(self.width)
    }

    fn write(&self, question: Line, out: &mut impl Write) -> io::Result<()> {
        let mut lines = line::lend_column(&self.data);
        lines.push(Line::new(Kind::NewUnpacker, [u64::from(self.width)], [0]));
        lines.push(question);
        line::write(&lines, out)
    }
}

fn any_width(draw: &mut Draw) -> u8 {
    let widths: Vec<u8> = legal_widths().collect();
    widths[draw.below(widths.len() as u64) as usize]
}

fn any_bytes(draw: &mut Draw, length: u64) -> Vec<u8> {
    (0..length).map(|_| draw.word() as u8).collect()
}

/// A column that the packer made of values, some of which are alike, and whose last byte has spare bits;
/// or any bytes, which need not end where a value does.
fn column_of(draw: &mut Draw, width: u8, values: u64) -> Column {
    let data = if draw.below(2) == 0 {
        packed(draw, width, values)
    } else {
        let length = (values * u64::from(width)).div_ceil(8) + draw.below(9);
        any_bytes(draw, length)
    };
    Column { width, data }
}

fn packed(draw: &mut Draw, width: u8, values: u64) -> Vec<u8> {
    let spread = draw.below(u64::from(width) + 1) as u8;
    let mut packer = BitPacker::new();
    let mut data = Vec::new();
    for _ in 0..values {
        let value = draw.of_width(spread);
        packer
            .write(value, width, &mut data)
            .expect("a vector takes every write");
    }
    packer.close(&mut data).expect("a vector takes every write");
    data
}

/// Of a column with values: the first, the last, any, or the last whose eight bytes lie in the data.
fn any_index(draw: &mut Draw, values: u64) -> u64 {
    match draw.below(4) {
        0 => 0,
        1 => values - 1,
        _ => draw.below(values),
    }
}

pub fn write_get(count: u64, mut draw: Draw, out: &mut impl Write) -> io::Result<()> {
    let mut edges = spread(get_edges(&mut draw), count);
    for _ in 0..count {
        let (column, index) = edges.next().unwrap_or_else(|| {
            let width = any_width(&mut draw);
            let values = 1 + draw.below(80);
            let column = column_of(&mut draw, width, values);
            let index = any_index(&mut draw, column.values());
            (column, index)
        });
        let value = column.unpacker().get(index as u32, &column.data);
        column.write(Line::new(Kind::ColumnGet, [index, 1], [0, value]), out)?;
    }
    Ok(())
}

/// Every legal width with every length of data, at the first and the last index, the one before it and
/// one in the middle; at width 0 far past the data too.
fn get_edges(draw: &mut Draw) -> Vec<(Column, u64)> {
    let mut cases = Vec::new();
    for width in legal_widths() {
        for length in DATA_LENGTHS {
            let column = Column {
                width,
                data: any_bytes(draw, length),
            };
            let values = column.values();
            let indexes = match (width, values) {
                (0, _) => vec![0, 1, (1 << 32) - 41],
                (_, 0) => vec![],
                (_, 1) => vec![0],
                _ => vec![0, values / 2, values - 2, values - 1],
            };
            for index in indexes {
                let column = Column {
                    width,
                    data: column.data.clone(),
                };
                cases.push((column, index));
            }
        }
    }
    cases
}

struct Span {
    start: u64,
    count: u64,
}

pub fn write_range(count: u64, mut draw: Draw, out: &mut impl Write) -> io::Result<()> {
    let mut edges = spread(range_edges(&mut draw), count);
    for _ in 0..count {
        let (column, span) = edges.next().unwrap_or_else(|| random_range(&mut draw));
        let mut values = vec![0; span.count as usize];
        column
            .unpacker()
            .get_range(span.start as u32, &column.data, &mut values);
        let answer = [vec![0], values].concat();
        let arguments = [span.start, span.count];
        column.write(Line::new(Kind::ColumnRange, arguments, answer), out)?;
    }
    Ok(())
}

/// Every legal width with every count, from the first index and from one that is not on a byte, where
/// the range ends with the data, and where eight bytes follow it.
fn range_edges(draw: &mut Draw) -> Vec<(Column, Span)> {
    let mut cases = Vec::new();
    for width in legal_widths() {
        for count in RANGE_COUNTS {
            for (start, after) in [(0, 0), (0, 8), (3, 0), (5, 8)] {
                let bytes = ((start + count) * u64::from(width)).div_ceil(8) + after;
                let column = Column {
                    width,
                    data: any_bytes(draw, bytes),
                };
                cases.push((column, Span { start, count }));
            }
        }
    }
    cases
}

fn random_range(draw: &mut Draw) -> (Column, Span) {
    let width = any_width(draw);
    let values = 1 + draw.below(150);
    let column = column_of(draw, width, values);
    let values = column.values();
    let start = any_index(draw, values);
    let left = values - start;
    let count = match draw.below(3) {
        0 => left,
        1 => draw.one_of(&RANGE_COUNTS).min(left),
        _ => draw.below(left + 1),
    };
    (column, Span { start, count })
}

struct Search {
    lowest: u64,
    highest: u64,
    start: u64,
    end: u64,
}

pub fn write_search(count: u64, mut draw: Draw, out: &mut impl Write) -> io::Result<()> {
    let mut edges = spread(search_edges(&mut draw), count);
    for _ in 0..count {
        let (column, search) = edges.next().unwrap_or_else(|| random_search(&mut draw));
        let Search {
            lowest,
            highest,
            start,
            end,
        } = search;
        let mut positions = Vec::new();
        column.unpacker().get_ids_for_value_range(
            lowest..=highest,
            start as u32..end as u32,
            &column.data,
            &mut positions,
        );
        let answer: Vec<u64> = [0]
            .into_iter()
            .chain(positions.into_iter().map(u64::from))
            .collect();
        // Half of the searches are lent exactly as many positions as there are ids.
        let room = end.saturating_sub(start) + draw.below(2) * draw.below(40);
        let arguments = [lowest, highest, start, end, room];
        let answer = line::each_position(&answer, room);
        column.write(Line::new(Kind::ColumnSearch, arguments, answer), out)?;
    }
    Ok(())
}

/// Every legal width with starts on each place of a byte, ranges around the 32 values of a batch, some of
/// thousands, and intervals of every sort.
fn search_edges(draw: &mut Draw) -> Vec<(Column, Search)> {
    let mut cases = Vec::new();
    for width in legal_widths() {
        for start in 0..8 {
            let count = draw.one_of(&[
                0, 1, 8, 23, 24, 25, 31, 32, 33, 39, 40, 41, 64, 71, 72, 73, 100,
            ]);
            for sort in 0..INTERVALS {
                cases.push(search_of(draw, width, Span { start, count }, sort));
            }
        }
        if width % 8 == 0 {
            let span = Span {
                start: draw.below(8),
                count: 1_000 + draw.below(2_000),
            };
            let sort = draw.below(INTERVALS);
            cases.push(search_of(draw, width, span, sort));
        }
    }
    cases
}

fn random_search(draw: &mut Draw) -> (Column, Search) {
    let width = any_width(draw);
    let count = match draw.below(2_000) {
        0 => 1_000 + draw.below(MOST_IDS - 1_000),
        n if n % 2 == 0 => draw.below(101),
        _ => draw.below(20),
    };
    let span = Span {
        start: draw.below(60),
        count,
    };
    let sort = draw.below(INTERVALS);
    search_of(draw, width, span, sort)
}

/// How many sorts of intervals there are.
const INTERVALS: u64 = 8;

/// A column that has the ids, and an interval of the given sort.
fn search_of(draw: &mut Draw, width: u8, ids: Span, sort: u64) -> (Column, Search) {
    let column = column_of(draw, width, ids.start + ids.count);
    let values = column.values();
    let met = match values {
        0 => 0,
        _ => column
            .unpacker()
            .get(draw.below(values) as u32, &column.data),
    };
    let other = draw.of_width(width);
    let (lowest, highest) = match sort {
        0 => (0, u64::MAX),
        1 => (met, met),
        2 => (met.min(other), met.max(other)),
        3 => (met.max(other) + u64::from(met == other), met.min(other)),
        4 => (0, met),
        5 => (met, u64::MAX),
        // above every value where the width leaves room above
        6 => (other.saturating_add(mask(width)), u64::MAX),
        // above every value of 32 bits
        _ => (draw.word() | 1 << 32, u64::MAX - draw.below(2)),
    };
    let Span { start, count } = ids;
    // An empty range may also end before it starts.
    let end = match count {
        0 => start - draw.below(start + 1),
        _ => start + count,
    };
    (
        column,
        Search {
            lowest,
            highest,
            start,
            end,
        },
    )
}

/// The largest value of a width.
fn mask(width: u8) -> u64 {
    u64::MAX.checked_shr(64 - u32::from(width)).unwrap_or(0)
}
