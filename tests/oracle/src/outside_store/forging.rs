//! What the histories of forged stores are made of.

use super::{History, answered, packed, span};
use crate::history::{Answer, Question, Search};

/// The first word of an entry.
pub const fn entry(offset: u64, width: u64) -> u64 {
    offset + (width << 56)
}

pub fn thousands() -> Vec<u64> {
    (1000..1128).collect()
}

/// 1000 to 1127 are sealed at 7 bits, and 5 and 6 wait.
pub fn sealed_and_waiting(bytes: usize, entries: usize) -> History {
    let mut history = History::new(bytes, entries);
    history.make(0);
    history.add(&thousands(), 128, 0);
    history.add(&[5, 6], 2, 0);
    history
}

/// Behind the 112 bytes of 1000 to 1127 the 16 bytes of 20, 21, 20, 21, ..; then 5 and 6 wait.
pub fn two_blocks() -> (History, Vec<u8>) {
    let bits: Vec<u64> = (0..128).map(|i| 20 + i % 2).collect();
    let mut history = History::new(137, 6);
    history.make(0);
    history.add(&[thousands(), bits.clone(), vec![5, 6]].concat(), 258, 0);
    let bytes = [packed(&thousands(), 7, 1000), packed(&bits, 1, 20)].concat();
    (history, bytes)
}

impl History {
    pub fn forge_fields(&mut self, fields: [u64; 4]) {
        self.numbers(Question::ForgeFields(fields), &[0]);
    }

    pub fn forge_entry(&mut self, place: u64, word: u64) {
        self.numbers(Question::ForgeEntry { place, word }, &[0]);
    }

    pub fn forge_byte(&mut self, place: u64, byte: u8) {
        self.numbers(Question::ForgeByte { place, byte }, &[0]);
    }

    /// The values from an index on, each by a read of its own, and by one read.
    pub fn read(&mut self, start: u64, values: &[u64]) {
        let span = span(start, values.len() as u64);
        let answer = [&[0], values].concat();
        self.get(span, &answer);
        self.numbers(Question::Range(span), &answer);
    }

    /// A search of all ids of a store that has these values, with a position for each.
    pub fn find(&mut self, lowest: u64, highest: u64, values: &[u64]) {
        let end = values.len() as u64;
        let search = Search {
            lowest,
            highest,
            start: 0,
            end,
            room: end,
        };
        let wanted = lowest..=highest;
        let ids = (0..end).filter(|id| wanted.contains(&values[*id as usize]));
        let answer: Vec<u64> = [0].into_iter().chain(ids).collect();
        self.numbers(Question::Search(search), &answer);
    }

    /// All that the store and its areas hold. What is not given was never written.
    pub fn look(&mut self, fields: [u64; 4], waiting: &[u64], entries: &[u64], bytes: &[u8]) {
        self.numbers(Question::Fields, &fields);
        let mut places = waiting.to_vec();
        places.resize(128, 0);
        self.numbers(Question::Waiting, &places);
        self.keep(Question::Entries, Answer::Entries(entries.to_vec()));
        self.keep(Question::Bytes, Answer::Bytes(bytes.to_vec()));
    }

    /// Puts so many last steps, which are all answered alike, into one line of the table.
    pub fn row_of_all(&mut self, what: &'static str, question: &str, count: usize) {
        let steps = &self.steps[self.steps.len() - count..];
        let same = answered(&steps[0]);
        assert!(steps.iter().all(|step| answered(step) == same));
        self.row(what, question);
        let row = self.rows.last_mut().expect("a row was put");
        row.port = format!("each {same}");
    }
}
