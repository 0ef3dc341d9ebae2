//! What is written: a step to a line, its numbers in hexadecimal with a space between two, then ` =` and its
//! answer, each number after a space. tests/README.md has the kinds.

use std::io::{self, Write};

/// A step's first number.
#[derive(Clone, Copy)]
pub enum Kind {
    Make = 0x0,
    Add = 0x1,
    Flush = 0x2,
    SetEntries = 0x3,
    SetBytes = 0x4,
    PackerWrites = 0x5,
    PackerFlushes = 0x6,
    NewPacker = 0x7,
    Lend = 0x8,
    ForgeStore = 0x9,
    ForgePacker = 0xa,
    NewUnpacker = 0xb,
    ForgeUnpacker = 0xc,
    Width = 0x10,
    MinMax = 0x11,
    MinMaxOfFloats = 0x12,
    Filter = 0x13,
    Count = 0x14,
    Fields = 0x15,
    Waiting = 0x16,
    Entries = 0x17,
    Bytes = 0x18,
    ColumnGet = 0x20,
    StoreGet = 0x21,
    ColumnRange = 0x22,
    StoreRange = 0x23,
    ColumnSearch = 0x24,
    StoreSearch = 0x25,
}

/// What every byte that the port may write holds before, and with it every place of 32 and of 64 bits.
const BYTE_BEFORE: u8 = 0xa5;
const POSITION_BEFORE: u64 = 0xa5a5_a5a5;
const BEFORE: u64 = 0xa5a5_a5a5_a5a5_a5a5;

/// The most numbers of a step, its kind among them.
const MOST_NUMBERS: usize = 8_192;

/// The most bytes and entry words that can be lent.
pub const MOST_BYTES: usize = 32_768;
pub const MOST_ENTRIES: usize = 256;

/// A step and its answer.
pub struct Line {
    kind: Kind,
    arguments: Vec<u64>,
    answer: Vec<u64>,
}

impl Line {
    pub fn new(kind: Kind, arguments: impl Into<Vec<u64>>, answer: impl Into<Vec<u64>>) -> Line {
        Line {
            kind,
            arguments: arguments.into(),
            answer: answer.into(),
        }
    }

    pub fn write(&self, out: &mut impl Write) -> io::Result<()> {
        assert!(self.arguments.len() < MOST_NUMBERS);
        let mut text = Vec::new();
        put(self.kind as u64, &mut text);
        put_each(&self.arguments, &mut text);
        text.extend(b" =");
        put_each(&self.answer, &mut text);
        text.push(b'\n');
        out.write_all(&text)
    }
}

fn put_each(numbers: &[u64], text: &mut Vec<u8>) {
    for &number in numbers {
        text.push(b' ');
        put(number, text);
    }
}

/// By hand: a hundred million numbers are written in a run.
fn put(number: u64, text: &mut Vec<u8>) {
    let digits = 1 + number.checked_ilog2().unwrap_or(0) / 4;
    for digit in (0..digits).rev() {
        text.push(b"0123456789abcdef"[(number >> (4 * digit)) as usize % 16]);
    }
}

pub fn write(lines: &[Line], out: &mut impl Write) -> io::Result<()> {
    lines.iter().try_for_each(|line| line.write(out))
}

/// So many bytes and entry words are lent, each of their bytes as it is before anything is written to it.
pub fn lend(bytes: usize, entries: usize) -> Vec<Line> {
    let mut lines = lend_bytes(bytes, entries, vec![BEFORE]);
    if entries > 0 {
        lines.push(Line::new(
            Kind::SetEntries,
            [0, entries as u64, BEFORE],
            [0],
        ));
    }
    lines
}

/// These bytes are lent, and no entry words.
pub fn lend_column(data: &[u8]) -> Vec<Line> {
    lend_bytes(data.len(), 0, words(data))
}

fn lend_bytes(bytes: usize, entries: usize, words: Vec<u64>) -> Vec<Line> {
    assert!(bytes <= MOST_BYTES && entries <= MOST_ENTRIES);
    let mut lines = vec![Line::new(Kind::Lend, [bytes as u64, entries as u64], [0])];
    if bytes > 0 {
        let arguments = [vec![0, bytes as u64], words].concat();
        lines.push(Line::new(Kind::SetBytes, arguments, [0]));
    }
    lines
}

/// Eight bytes to a word, least first, the last word filled up with zeros.
fn words(bytes: &[u8]) -> Vec<u64> {
    let word_of = |chunk: &[u8]| {
        let mut word = [0; 8];
        word[..chunk.len()].copy_from_slice(chunk);
        u64::from_le_bytes(word)
    };
    bytes.chunks(8).map(word_of).collect()
}

/// The answer to a look at so many bytes, of which these were written and the others not.
pub fn each_byte(written: &[u8], lent: usize) -> Vec<u64> {
    let mut all = vec![0];
    all.extend(written.iter().copied().map(u64::from));
    all.resize(1 + lent, u64::from(BYTE_BEFORE));
    all
}

/// The same of entry words.
pub fn each_entry(written: &[u64], lent: usize) -> Vec<u64> {
    let mut all = [&[0], written].concat();
    all.resize(1 + lent, BEFORE);
    all
}

/// The answer of a range: 0 and its values, or a refusal, after which every place of the output is as it was.
pub fn each_value(answer: &[u64], count: u64) -> Vec<u64> {
    let mut all = answer.to_vec();
    all.resize(1 + count as usize, BEFORE);
    all
}

/// The answer of a search, of which 0 and the ids are given, or a refusal: behind it stands how many ids there
/// are, and after these the positions that are lent and hold none are as they were.
pub fn each_position(answer: &[u64], room: u64) -> Vec<u64> {
    let (refusal, ids) = answer.split_first().expect("a search has an answer");
    let mut all = [&[*refusal, ids.len() as u64], ids].concat();
    all.resize(2 + room as usize, POSITION_BEFORE);
    all
}
