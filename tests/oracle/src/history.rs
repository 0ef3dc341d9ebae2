//! A history of the blocked store: steps, each a question and its answer. `Recorder` takes the steps on the
//! Rust's store and keeps its answers.

use std::io::{self, Write};

use tantivy_bitpacker::{BitPacker, BlockedBitpacker, compute_num_bits};

use crate::line::{self, Kind, Line, MOST_BYTES, MOST_ENTRIES};

pub const BLOCK_SIZE: usize = 128;

pub enum Question {
    Make,
    Add(Vec<u64>),
    Flush,
    Count,
    /// One read for each index.
    Get(Span),
    /// One read of the whole stretch.
    Range(Span),
    Search(Search),
    /// Used bytes, blocks, waiting values, last length.
    Fields,
    /// Every place of the waiting array.
    Waiting,
    /// Every entry word that is lent.
    Entries,
    /// Every byte that is lent.
    Bytes,
    /// The store goes on with these fields, in the order in which they are asked for.
    ForgeFields([u64; 4]),
    ForgeEntry {
        place: u64,
        word: u64,
    },
    ForgeByte {
        place: u64,
        byte: u8,
    },
}

#[derive(Clone, Copy)]
pub struct Span {
    pub start: u64,
    pub count: u64,
}

#[derive(Clone, Copy)]
pub struct Search {
    pub lowest: u64,
    pub highest: u64,
    pub start: u64,
    pub end: u64,
    /// How many positions are lent.
    pub room: u64,
}

impl Question {
    /// Whether it is a step that the Rust's store cannot take: its fields are private.
    pub fn forges(&self) -> bool {
        matches!(
            self,
            Question::ForgeFields(_) | Question::ForgeEntry { .. } | Question::ForgeByte { .. }
        )
    }

    fn kind_and_arguments(&self) -> (Kind, Vec<u64>) {
        match self {
            Question::Make => (Kind::Make, vec![]),
            Question::Add(values) => (Kind::Add, values.clone()),
            Question::Flush => (Kind::Flush, vec![]),
            Question::Count => (Kind::Count, vec![]),
            Question::Get(span) => (Kind::StoreGet, vec![span.start, span.count]),
            Question::Range(span) => (Kind::StoreRange, vec![span.start, span.count]),
            Question::Search(search) => {
                let Search {
                    lowest,
                    highest,
                    start,
                    end,
                    room,
                } = *search;
                (Kind::StoreSearch, vec![lowest, highest, start, end, room])
            }
            Question::Fields => (Kind::Fields, vec![]),
            Question::Waiting => (Kind::Waiting, vec![]),
            Question::Entries => (Kind::Entries, vec![]),
            Question::Bytes => (Kind::Bytes, vec![]),
            Question::ForgeFields(fields) => (Kind::ForgeStore, fields.to_vec()),
            Question::ForgeEntry { place, word } => {
                (Kind::SetEntries, vec![*place, place + 1, *word])
            }
            Question::ForgeByte { place, byte } => {
                (Kind::SetBytes, vec![*place, place + 1, u64::from(*byte)])
            }
        }
    }
}

pub enum Answer {
    /// Of a search 0 and the ids, or the refusal. Positions without an id are as they were.
    Numbers(Vec<u64>),
    /// The entry words of the blocks. Those after them are as they were.
    Entries(Vec<u64>),
    /// The bytes of the blocks and the eight zeros. Those after them are as they were.
    Bytes(Vec<u8>),
}

/// How many bytes and entry words are lent.
#[derive(Clone, Copy)]
pub struct Rooms {
    pub bytes: usize,
    pub entries: usize,
}

impl Rooms {
    pub fn fit_a_case(self) -> bool {
        self.bytes <= MOST_BYTES && self.entries <= MOST_ENTRIES
    }
}

pub struct Step {
    pub question: Question,
    pub answer: Answer,
}

impl Step {
    fn answer_in(&self, rooms: Rooms) -> Vec<u64> {
        match (&self.answer, &self.question) {
            (Answer::Numbers(numbers), Question::Search(search)) => {
                line::each_position(numbers, search.room)
            }
            (Answer::Numbers(places), Question::Waiting) => [&[0], &places[..]].concat(),
            (Answer::Numbers(numbers), _) => numbers.clone(),
            (Answer::Entries(words), _) => line::each_entry(words, rooms.entries),
            (Answer::Bytes(bytes), _) => line::each_byte(bytes, rooms.bytes),
        }
    }
}

/// How many numbers stand as answers, and how many of them are values read and ids found.
#[derive(Default)]
pub struct Compared {
    pub answers: u64,
    pub values: u64,
    pub ids: u64,
}

impl Compared {
    fn count(&mut self, question: &Question, answer: &[u64]) {
        let length = answer.len() as u64;
        self.answers += length;
        match question {
            Question::Get(_) | Question::Range(_) => self.values += length - 1,
            Question::Search(_) => self.ids += answer[1],
            _ => {}
        }
    }
}

/// Writes a history in areas of its own.
pub fn write(
    steps: &[Step],
    rooms: Rooms,
    compared: &mut Compared,
    out: &mut impl Write,
) -> io::Result<()> {
    line::write(&line::lend(rooms.bytes, rooms.entries), out)?;
    for step in steps {
        let (kind, arguments) = step.question.kind_and_arguments();
        let answer = step.answer_in(rooms);
        compared.count(&step.question, &answer);
        Line::new(kind, arguments, answer).write(out)?;
    }
    Ok(())
}

/// What the Rust's store holds. Its fields are private; its `Debug` form tells them.
pub struct Held {
    pub bytes: Vec<u8>,
    pub waiting: Vec<u64>,
    pub entries: Vec<u64>,
}

impl Held {
    pub fn of(store: &BlockedBitpacker) -> Held {
        let text = format!("{store:?}");
        let (bytes, rest) = text.split_once("buffer: ").expect("the field buffer");
        let (waiting, entries) = rest
            .split_once("offset_and_bits: ")
            .expect("the field offset_and_bits");
        Held {
            bytes: numbers_in(bytes)
                .map(|n| u8::try_from(n).expect("a byte"))
                .collect(),
            waiting: numbers_in(waiting).collect(),
            entries: numbers_in(entries).collect(),
        }
    }
}

fn numbers_in(text: &str) -> impl Iterator<Item = u64> {
    text.split(|c: char| !c.is_ascii_digit())
        .filter(|digits| !digits.is_empty())
        .map(|digits| digits.parse().expect("a number"))
}

/// What the Rust's `BitPacker` makes of a block's differences.
fn packed(values: &[u64], bytes: &mut Vec<u8>, entries: &mut Vec<u64>) {
    let lowest = *values.iter().min().expect("a block has values");
    let highest = *values.iter().max().expect("a block has values");
    let width = compute_num_bits(highest - lowest);
    entries.extend([bytes.len() as u64 + (u64::from(width) << 56), lowest]);
    let mut packer = BitPacker::new();
    for value in values {
        packer
            .write(value - lowest, width, bytes)
            .expect("a vector takes every write");
    }
    packer.flush(bytes).expect("a vector takes every write");
}

/// Takes steps on the Rust's store, and keeps them with its answers. All of them lie in the domain in which
/// the Rust decides: values are added only to an open store, and reads lie in the values.
pub struct Recorder {
    rust: BlockedBitpacker,
    values: Vec<u64>,
    closed: bool,
    pub steps: Vec<Step>,
}

impl Recorder {
    pub fn new() -> Recorder {
        let mut made = Recorder {
            rust: BlockedBitpacker::new(),
            values: Vec::new(),
            closed: false,
            steps: Vec::new(),
        };
        made.keep(Question::Make, vec![0, 0]);
        made
    }

    pub fn values(&self) -> &[u64] {
        &self.values
    }

    fn keep(&mut self, question: Question, answer: Vec<u64>) {
        self.steps.push(Step {
            question,
            answer: Answer::Numbers(answer),
        });
    }

    pub fn add(&mut self, values: &[u64]) {
        assert!(!self.closed, "a value added to a closed store");
        for &value in values {
            self.rust.add(value);
        }
        self.values.extend(values);
        self.keep(Question::Add(values.to_vec()), vec![values.len() as u64, 0]);
    }

    pub fn flush(&mut self) {
        self.rust.flush();
        self.closed |= self.values.len() % BLOCK_SIZE > 0;
        self.keep(Question::Flush, vec![0, 0]);
    }

    /// The Rust counts by its iterator, except where that reads on into a short block's padding.
    pub fn count(&mut self) {
        let count = self.values.len();
        if !self.closed {
            assert_eq!(self.rust.iter().count(), count);
        }
        self.keep(Question::Count, vec![0, count as u64]);
    }

    pub fn get(&mut self, span: Span) {
        let values = (span.start..span.start + span.count).map(|i| self.rust.get(i as usize));
        let answer = [0].into_iter().chain(values).collect();
        self.keep(Question::Get(span), answer);
    }

    pub fn range(&mut self, span: Span) {
        let values = self
            .rust
            .iter()
            .skip(span.start as usize)
            .take(span.count as usize);
        let answer = [0].into_iter().chain(values).collect();
        self.keep(Question::Range(span), answer);
    }

    /// A plain scan of what the Rust's iterator gives.
    pub fn search(&mut self, search: Search) {
        let wanted = search.lowest..=search.highest;
        let ids = self
            .rust
            .iter()
            .zip(0..search.end)
            .filter(|(value, id)| *id >= search.start && wanted.contains(value))
            .map(|(_, id)| id);
        let answer = [0].into_iter().chain(ids).collect();
        self.keep(Question::Search(search), answer);
    }

    /// All that the store and its areas hold. The block bytes and entry words of the Rust's store must be
    /// what its `BitPacker` makes of the differences.
    pub fn look(&mut self) {
        let Held {
            bytes,
            waiting,
            entries,
        } = Held::of(&self.rust);
        let blocks = entries.len() / 2;
        let (mut packed_bytes, mut packed_entries) = (Vec::new(), Vec::new());
        for block in self.values.chunks(BLOCK_SIZE).take(blocks) {
            packed(block, &mut packed_bytes, &mut packed_entries);
        }
        let used = packed_bytes.len();
        packed_bytes.extend([0; 8]);
        assert!(bytes == packed_bytes && entries == packed_entries);
        let last_length = match self.closed {
            true => self.values.len() % BLOCK_SIZE,
            false => 0,
        };
        let fields = [used, blocks, waiting.len(), last_length];
        self.keep(Question::Fields, fields.map(|n| n as u64).to_vec());
        let mut places = waiting;
        places.resize(BLOCK_SIZE, 0);
        self.keep(Question::Waiting, places);
        self.steps.push(Step {
            question: Question::Entries,
            answer: Answer::Entries(entries),
        });
        self.steps.push(Step {
            question: Question::Bytes,
            answer: Answer::Bytes(bytes),
        });
    }

    /// The smallest areas in which the history has room.
    pub fn rooms(&self) -> Rooms {
        let held = Held::of(&self.rust);
        Rooms {
            bytes: held.bytes.len(),
            entries: held.entries.len(),
        }
    }
}
