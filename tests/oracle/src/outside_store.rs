//! Histories of the store outside the domain in which the Rust decides, with document 01's answers for the
//! port: `oracle outside-store-cases` writes them as cases, `oracle outside-store` prints what the Rust
//! does at each question beside what the port does.

mod damaged;
mod forged;
mod forging;

use std::any::Any;
use std::io::{self, Write};
use std::panic::{self, AssertUnwindSafe};

use tantivy_bitpacker::BlockedBitpacker;

use crate::history::{self, Answer, Compared, Question, Rooms, Search, Span, Step};
use crate::line;
use crate::outside::{BY_CONTRACT, NOT_RUN};

/// A history as the port takes it by document 01, and the Rust's store after as many adds and flushes: it
/// refuses none of them.
struct History {
    rooms: Rooms,
    rust: BlockedBitpacker,
    /// What was done so far, in words.
    so_far: &'static str,
    steps: Vec<Step>,
    rows: Vec<Row>,
}

struct Row {
    what: &'static str,
    so_far: &'static str,
    question: String,
    rust: String,
    port: String,
}

pub fn write_cases(out: &mut impl Write) -> io::Result<()> {
    let mut histories = histories();
    histories.retain(|history| history.rooms.fit_a_case());
    for history in &histories {
        let mut compared = Compared::default();
        history::write(&history.steps, history.rooms, &mut compared, out)?;
    }
    Ok(())
}

pub fn print(out: &mut impl Write) -> io::Result<()> {
    writeln!(
        out,
        "| what it shows | asked of | question | the Rust | the port |"
    )?;
    writeln!(out, "|---|---|---|---|---|")?;
    for history in histories() {
        let Rooms { bytes, entries } = history.rooms;
        let by_contract = match history.rooms.fit_a_case() {
            true => "",
            false => BY_CONTRACT,
        };
        for row in history.rows {
            writeln!(
                out,
                "| {} | {bytes} bytes, {entries} entry words: {} | {} | {} | {}{by_contract} |",
                row.what, row.so_far, row.question, row.rust, row.port,
            )?;
        }
    }
    Ok(())
}

fn histories() -> Vec<History> {
    // What a panic says is printed in its row, and not when it happens.
    panic::set_hook(Box::new(|_| {}));
    let mut all = vec![
        march_night(),
        past_the_count(),
        no_room_to_make(),
        no_room_to_seal(),
        room_by_the_last_value(),
        no_room_to_flush(),
        no_entry_for_a_block(),
        no_entry_for_a_flush(),
    ];
    all.extend(damaged::histories());
    all.extend(forged::histories());
    all
}

fn span(start: u64, count: u64) -> Span {
    Span { start, count }
}

/// 117 terms, a flush, and eleven more: document 01's example l.
fn march_night() -> History {
    let what = "add after a partial flush: the March night";
    let mut history = History::new(80, 4);
    history.make(0);
    let terms: Vec<u64> = (0..117).map(|i| i % 13).collect();
    history.add(&terms, 117, 0);
    history.flush(0);
    history.so_far = "117 terms 0 to 12, a flush";
    let eleven: Vec<u64> = (20..=30).collect();
    history.add(&eleven, 0, 6);
    history.row(what, "add 20, the first of eleven");
    history.so_far = "117 terms 0 to 12, a flush, 20 to 30 added";
    let eleven_indexes = span(117, 11);
    history.get(eleven_indexes, &[7]);
    history.row(what, "get of each index from 117 to 127");
    history.count(&[0, 117]);
    history.row(what, "how many values; in the Rust as `iter` counts");
    history.range(span(117, 22), 7);
    history.row(what, "22 values from 117; in the Rust by `iter`");
    history.get(span(0, 117), &[&[0], &terms[..]].concat());
    history.sealed_once(&terms, 59, 4, 0, 117);
    history.flush(0);
    history.so_far = "117 terms 0 to 12, a flush, 20 to 30 added, a flush";
    history.get(eleven_indexes, &[7]);
    history.row(what, "get of each index from 117 to 127");
    history.sealed_once(&terms, 59, 4, 0, 117);
    history
}

fn past_the_count() -> History {
    let what = "index past the count";
    let mut history = History::new(16, 2);
    history.make(0);
    history.add(&[5, 6, 7], 3, 0);
    history.so_far = "5, 6, 7 added";
    history.get(span(3, 1), &[7]);
    history.row(what, "get of 3");
    history.flush(0);
    history.so_far = "5, 6, 7 added, a flush";
    history.get(span(2, 2), &[7, 7]);
    history.get(span(3, 1), &[7]);
    history.row(what, "get of 3");
    history.get(span(1000, 1), &[7]);
    history.row(what, "get of 1000");
    history.get(span(u64::MAX, 1), &[7]);
    history.row(what, "get of 2^64 - 1");
    history.range(span(2, 2), 7);
    history.row(what, "2 values from 2; in the Rust by `iter`");
    history.range(span(u64::MAX, 0), 0);
    history.row(what, "0 values from 2^64 - 1; in the Rust by `iter`");
    history.search(0, 4, 4, &[7]);
    history.row(what, "search of ids 0 to before 4, 4 positions");
    history.search(0, 4, 3, &[7]);
    history.row(what, "search of ids 0 to before 4, 3 positions");
    history.search(900, 900, 0, &[0]);
    history.row(what, "search of ids 900 to before 900, no positions");
    let what = "fewer positions than ids";
    history.search(0, 3, 2, &[4]);
    history.row(what, "search of ids 0 to before 3, 2 positions");
    history.search(0, 3, 3, &[0, 0, 1, 2]);
    history.row(what, "search of ids 0 to before 3, 3 positions");
    history.sealed_once(&[5, 6, 7], 1, 2, 5, 3);
    history
}

fn no_room_to_make() -> History {
    let mut history = History::new(7, 2);
    history.so_far = "nothing yet";
    history.make(4);
    history.row("no room", "make a store");
    history.keep(Question::Fields, Answer::Numbers(vec![0, 0, 0, 0]));
    history.keep(Question::Entries, Answer::Entries(vec![]));
    history.keep(Question::Bytes, Answer::Bytes(vec![]));
    // With no room for the eight zeros, the fresh store that came back is damaged.
    history.count(&[8]);
    history
}

/// Document 01's example j.
fn no_room_to_seal() -> History {
    let mut history = History::new(119, 2);
    let values: Vec<u64> = (1000..1128).collect();
    history.make(0);
    history.add(&values[..127], 127, 0);
    history.so_far = "1000 to 1126 added";
    history.waiting(&values[..127]);
    history.add(&values[127..], 0, 4);
    history.row("no room", "add 1127");
    history.waiting(&values[..127]);
    history.count(&[0, 127]);
    history.get(span(0, 128), &[&[7], &values[..127]].concat());
    // 127 of them take as many bytes as 128.
    history.flush(4);
    history.so_far = "1000 to 1126 added, 1127 and a flush refused";
    history.waiting(&values[..127]);
    history.get(span(126, 1), &[0, 1126]);
    history.row("no room", "get of 126");
    history
}

/// Document 01's example k: the width is that of all 128 values.
fn room_by_the_last_value() -> History {
    let mut history = History::new(8, 2);
    history.make(0);
    history.add(&[5; 127], 127, 0);
    history.so_far = "127 fives added";
    history.add(&[6], 0, 4);
    history.row("no room", "add 6");
    history.waiting(&[5; 127]);
    history.so_far = "127 fives added, 6 refused";
    history.add(&[5], 1, 0);
    history.row("no room", "add 5");
    history.count(&[0, 128]);
    history.sealed_once(&[5; 128], 0, 0, 5, 0);
    history
}

fn no_room_to_flush() -> History {
    let mut history = History::new(9, 2);
    history.make(0);
    history.add(&[0, 255], 2, 0);
    history.so_far = "0, 255 added";
    history.flush(4);
    history.row("no room", "flush");
    history.waiting(&[0, 255]);
    history.so_far = "0, 255 added, a flush refused";
    history.add(&[7], 1, 0);
    history.row("no room", "add 7");
    history.waiting(&[0, 255, 7]);
    history
}

fn no_entry_for_a_block() -> History {
    let mut history = History::new(200, 3);
    let values: Vec<u64> = (0..256).map(|i| i % 128).collect();
    history.make(0);
    history.add(&values, 255, 5);
    history.so_far = "0 to 127 added, 0 to 126 added";
    history.row("no entry words", "add 127");
    history.count(&[0, 255]);
    history.row(
        "no entry words",
        "how many values; in the Rust as `iter` counts",
    );
    history.get(span(0, 256), &[&[7], &values[..255]].concat());
    let bytes = [packed(&values[..128], 7, 0), vec![0; 8]].concat();
    history.look([112, 1, 127, 0], &values[..127], &[7 << 56, 0], &bytes);
    history
}

/// The entry words are looked at before the bytes.
fn no_entry_for_a_flush() -> History {
    let mut history = History::new(8, 1);
    history.make(0);
    history.add(&[0, 1], 2, 0);
    history.so_far = "0, 1 added";
    history.flush(5);
    history.row("no entry words", "flush");
    history.waiting(&[0, 1]);
    history.count(&[0, 2]);
    history
}

impl History {
    fn new(bytes: usize, entries: usize) -> History {
        History {
            rooms: Rooms { bytes, entries },
            rust: BlockedBitpacker::new(),
            so_far: "",
            steps: Vec::new(),
            rows: Vec::new(),
        }
    }

    fn keep(&mut self, question: Question, answer: Answer) {
        self.steps.push(Step { question, answer });
    }

    fn numbers(&mut self, question: Question, answer: &[u64]) {
        self.keep(question, Answer::Numbers(answer.to_vec()));
    }

    fn make(&mut self, refusal: u64) {
        self.numbers(Question::Make, &[0, refusal]);
    }

    /// So many of the values are accepted before the refusal, 0 where none is.
    fn add(&mut self, values: &[u64], accepted: u64, refusal: u64) {
        for &value in values {
            self.rust.add(value);
        }
        self.numbers(Question::Add(values.to_vec()), &[accepted, refusal]);
    }

    fn flush(&mut self, refusal: u64) {
        self.rust.flush();
        self.numbers(Question::Flush, &[0, refusal]);
    }

    fn count(&mut self, answer: &[u64]) {
        self.numbers(Question::Count, answer);
    }

    fn get(&mut self, span: Span, answer: &[u64]) {
        self.numbers(Question::Get(span), answer);
    }

    /// The output of a refused range, and that of an empty one, stays as it was.
    fn range(&mut self, span: Span, refusal: u64) {
        let answer = line::each_value(&[refusal], span.count);
        self.numbers(Question::Range(span), &answer);
    }

    fn search(&mut self, start: u64, end: u64, room: u64, answer: &[u64]) {
        let search = Search {
            lowest: 0,
            highest: u64::MAX,
            start,
            end,
            room,
        };
        self.numbers(Question::Search(search), answer);
    }

    /// The areas of a store without a block, in which some values wait.
    fn waiting(&mut self, values: &[u64]) {
        self.numbers(Question::Fields, &[0, 0, values.len() as u64, 0]);
        let mut places = values.to_vec();
        places.resize(128, 0);
        self.numbers(Question::Waiting, &places);
        self.keep(Question::Entries, Answer::Entries(vec![]));
        self.keep(Question::Bytes, Answer::Bytes(vec![0; 8]));
    }

    /// Those of a store with one block and nothing waiting. Its bytes are the bit rule's.
    fn sealed_once(&mut self, values: &[u64], used: u64, width: u64, base: u64, last_length: u64) {
        self.numbers(Question::Fields, &[used, 1, 0, last_length]);
        self.numbers(Question::Waiting, &[0; 128]);
        self.keep(Question::Entries, Answer::Entries(vec![width << 56, base]));
        let mut bytes = packed(values, width, base);
        bytes.extend([0; 8]);
        self.keep(Question::Bytes, Answer::Bytes(bytes));
    }

    /// Puts the last step into the table.
    fn row(&mut self, what: &'static str, question: &str) {
        let step = self.steps.last().expect("a row is of a step");
        self.rows.push(Row {
            what,
            so_far: self.so_far,
            question: question.to_string(),
            rust: self.rust_does(&step.question),
            port: answered(step),
        });
    }

    fn rust_does(&self, question: &Question) -> String {
        if self.steps.iter().any(|step| step.question.forges()) {
            return NOT_RUN.to_string();
        }
        panic::catch_unwind(AssertUnwindSafe(|| asked(&self.rust, question)))
            .unwrap_or_else(|why| format!("panics: {}", message(why.as_ref())))
    }
}

/// The bytes of a block by the bit rule.
fn packed(values: &[u64], width: u64, base: u64) -> Vec<u8> {
    let mut bytes = vec![0; (values.len() * width as usize).div_ceil(8)];
    for (place, value) in values.iter().enumerate() {
        for bit in 0..width {
            let at = place as u64 * width + bit;
            bytes[at as usize / 8] |= (((value - base) >> bit & 1) as u8) << (at % 8);
        }
    }
    bytes
}

/// What the Rust does. An add or a flush was done before.
fn asked(rust: &BlockedBitpacker, question: &Question) -> String {
    match question {
        Question::Make | Question::Add(_) | Question::Flush => "done".to_string(),
        Question::Count => rust.iter().count().to_string(),
        Question::Get(span) => {
            let indexes = (0..span.count).map(|i| (span.start + i) as usize);
            listed(&indexes.map(|i| rust.get(i)).collect::<Vec<_>>())
        }
        Question::Range(span) => {
            let values = rust.iter().skip(span.start as usize);
            listed(&values.take(span.count as usize).collect::<Vec<_>>())
        }
        _ => "has no search".to_string(),
    }
}

fn answered(step: &Step) -> String {
    let Answer::Numbers(numbers) = &step.answer else {
        return "done".to_string();
    };
    let (refusal, values) = match &step.question {
        Question::Make | Question::Add(_) | Question::Flush => (numbers[1], &[][..]),
        _ => (numbers[0], &numbers[1..]),
    };
    match &step.question {
        _ if refusal > 0 => format!("refuses {refusal}"),
        Question::Make | Question::Add(_) | Question::Flush => "done".to_string(),
        _ => listed(values),
    }
}

fn message(why: &(dyn Any + Send)) -> &str {
    let owned = why.downcast_ref::<String>().map(String::as_str);
    owned
        .or_else(|| why.downcast_ref::<&str>().copied())
        .unwrap_or("without a message")
}

/// Values in words, with runs of equal and of rising ones cut short.
fn listed(values: &[u64]) -> String {
    let mut parts = Vec::new();
    let mut rest = values;
    while let [first, ..] = rest {
        let run = |step: u64| {
            let expected = (0..).map(|i| first.checked_add(step * i));
            rest.iter()
                .zip(expected)
                .take_while(|(a, b)| Some(**a) == *b)
                .count()
        };
        let (equal, rising) = (run(0), run(1));
        let length = match (equal, rising) {
            (3.., _) => {
                parts.push(format!("{first}, {equal} times"));
                equal
            }
            (_, 3..) => {
                parts.push(format!("{first} to {}", rest[rising - 1]));
                rising
            }
            _ => {
                parts.push(first.to_string());
                1
            }
        };
        rest = &rest[length..];
    }
    match parts.is_empty() {
        true => "nothing".to_string(),
        false => parts.join(", "),
    }
}
