//! A question to a bare column.

use std::ops::Range;

use tantivy_bitpacker::BitUnpacker;

use super::{NOT_RUN, Question, listed};
use crate::column::legal_widths;
use crate::line::{self, Kind, Line, MOST_BYTES};

#[derive(Clone, Copy)]
pub enum Unpacker {
    /// What `new` makes for the width.
    New(u8),
    /// One with these fields.
    Fields { width: u64, mask: u64 },
}

pub enum Asked {
    Get(u32),
    Range {
        start: u32,
        count: usize,
    },
    Search {
        lowest: u64,
        ids: Range<u32>,
        room: usize,
    },
}

/// As many positions as there are ids.
pub fn search(lowest: u64, ids: Range<u32>) -> Asked {
    let room = ids.len();
    Asked::Search { lowest, ids, room }
}

pub fn range(start: u32, count: usize) -> Asked {
    Asked::Range { start, count }
}

/// What the port answers by document 01.
#[derive(Clone)]
pub enum Port {
    Refuses(u64),
    Answers(Vec<u64>),
}

pub struct Case {
    pub line: &'static str,
    pub unpacker: Unpacker,
    pub data: Vec<u8>,
    pub asked: Asked,
    pub port: Port,
}

impl Question for Case {
    fn line(&self) -> &'static str {
        self.line
    }

    fn of(&self) -> String {
        let bytes = self.data.len();
        match self.unpacker {
            Unpacker::New(width) => format!("{width} bits, {bytes} bytes"),
            Unpacker::Fields { width, mask } => {
                format!("{width} bits, mask {mask:#x}, {bytes} bytes")
            }
        }
    }

    fn asked(&self) -> String {
        match &self.asked {
            Asked::Get(index) => format!("index {index}"),
            Asked::Range { start, count } => format!("{count} values from {start}"),
            Asked::Search { lowest, ids, room } => {
                let few = match ids.len() {
                    ids if *room < ids => format!(", {room} positions"),
                    _ => String::new(),
                };
                let Range { start, end } = ids;
                format!("ids {start} to before {end}, values from {lowest}{few}")
            }
        }
    }

    fn rust(&self) -> String {
        let Unpacker::New(width) = self.unpacker else {
            return NOT_RUN.to_string();
        };
        let unpacker = BitUnpacker::new(width);
        match &self.asked {
            Asked::Get(index) => unpacker.get(*index, &self.data).to_string(),
            Asked::Range { start, count } => {
                let mut values = vec![0; *count];
                unpacker.get_range(*start, &self.data, &mut values);
                listed(values)
            }
            Asked::Search { lowest, ids, room } => {
                let mut positions = vec![0; *room];
                let values = *lowest..=u64::MAX;
                let data = &self.data;
                unpacker.get_ids_for_value_range(values, ids.clone(), data, &mut positions);
                listed(positions)
            }
        }
    }

    fn port(&self) -> String {
        match &self.port {
            Port::Refuses(number) => format!("refuses {number}"),
            Port::Answers(values) => listed(values),
        }
    }

    /// Where `new` refuses there is no unpacker to ask.
    fn case(&self) -> Option<Vec<Line>> {
        if self.data.len() > MOST_BYTES {
            return None;
        }
        let answer = match &self.port {
            Port::Refuses(number) => vec![*number],
            Port::Answers(values) => [&[0], &values[..]].concat(),
        };
        let mut lines = line::lend_column(&self.data);
        match self.unpacker {
            Unpacker::New(width) if !legal_widths().any(|legal| legal == width) => {
                lines.push(Line::new(Kind::NewUnpacker, [u64::from(width)], answer));
                return Some(lines);
            }
            Unpacker::New(width) => {
                lines.push(Line::new(Kind::NewUnpacker, [u64::from(width)], [0]));
            }
            Unpacker::Fields { width, mask } => {
                lines.push(Line::new(Kind::ForgeUnpacker, [width, mask], [0]));
            }
        }
        lines.push(self.asked.line(answer));
        Some(lines)
    }
}

impl Asked {
    fn line(&self, answer: Vec<u64>) -> Line {
        match self {
            Asked::Get(index) => Line::new(Kind::ColumnGet, [u64::from(*index), 1], answer),
            Asked::Range { start, count } => {
                let count = *count as u64;
                let answer = line::each_value(&answer, count);
                Line::new(Kind::ColumnRange, [u64::from(*start), count], answer)
            }
            Asked::Search { lowest, ids, room } => {
                let room = *room as u64;
                let [start, end] = [ids.start, ids.end].map(u64::from);
                let answer = line::each_position(&answer, room);
                let arguments = [*lowest, u64::MAX, start, end, room];
                Line::new(Kind::ColumnSearch, arguments, answer)
            }
        }
    }
}
