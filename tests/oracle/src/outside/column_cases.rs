//! The questions to a bare column.

use super::Question;
use super::column::Asked::{self, Get};
use super::column::Port::{self, Answers, Refuses};
use super::column::Unpacker::{self, Fields, New};
use super::column::{Case, range, search};

/// Three values of three bits, 5, 6 and 7, as in document 01's example d.
const FIVE_SIX_SEVEN: [u8; 2] = [0xf5, 0x01];

pub fn questions() -> Vec<Box<dyn Question>> {
    [
        widths_of_new(),
        forged_widths(),
        forged_masks(),
        get_past_the_end(),
        range_past_the_end(),
        wrapping_ranges(),
        empty_past_the_data(),
        above_every_value(),
        near_the_last_index(),
        search_past_the_data(),
        few_positions(),
    ]
    .into_iter()
    .flatten()
    .map(|case| Box::new(case) as Box<dyn Question>)
    .collect()
}

/// Questions to 5, 6, 7 that are all answered alike.
fn alike(line: &'static str, port: Port, asked: Vec<(Unpacker, Asked)>) -> Vec<Case> {
    asked
        .into_iter()
        .map(|(unpacker, asked)| Case {
            line,
            unpacker,
            data: FIVE_SIX_SEVEN.to_vec(),
            asked,
            port: port.clone(),
        })
        .collect()
}

fn widths_of_new() -> Vec<Case> {
    alike(
        "`new` with an illegal width",
        Refuses(1),
        vec![
            (New(57), Get(0)),
            (New(63), range(0, 1)),
            (New(63), search(0, 0..1)),
            (New(65), Get(0)),
            (New(255), Get(0)),
        ],
    )
}

/// The width is judged before the mask, the emptiness of a range and the data.
fn forged_widths() -> Vec<Case> {
    let fields = |width, mask| Fields { width, mask };
    alike(
        "an unpacker with a forged width",
        Refuses(1),
        vec![
            (fields(57, (1 << 57) - 1), Get(0)),
            (fields(57, (1 << 57) - 1), range(0, 0)),
            (fields(57, (1 << 57) - 1), search(0, 5..5)),
            (fields(63, 0), Get(100)),
            (fields(65, u64::MAX), range(100, 1)),
            (fields(u64::MAX, u64::MAX), search(0, 100..200)),
        ],
    )
}

/// The mask is judged before the emptiness of a range, the data and the positions.
fn forged_masks() -> Vec<Case> {
    let fields = |width, mask| Fields { width, mask };
    let line = "an unpacker with a forged mask";
    let too_few = Asked::Search {
        lowest: 0,
        ids: 0..3,
        room: 0,
    };
    let mut all = alike(
        line,
        Refuses(8),
        vec![
            (fields(3, 3), Get(0)),
            (fields(3, 15), Get(100)),
            (fields(0, 1), Get(0)),
            (fields(64, 0), Get(0)),
            (fields(3, 0), range(0, 3)),
            (fields(3, 3), range(0, 0)),
            (fields(3, 3), range(100, 1)),
            (fields(3, 6), search(0, 0..3)),
            (fields(3, 3), search(0, 5..5)),
            (fields(3, 3), search(0, 0..100)),
            (fields(3, 3), too_few),
        ],
    );
    let sound = vec![(fields(3, 7), Get(1))];
    all.extend(alike(line, Answers(vec![6]), sound));
    all
}

fn get_past_the_end() -> Vec<Case> {
    let get = |width, data: &[u8], index, port| Case {
        line: "`get` past the end",
        unpacker: New(width),
        data: data.to_vec(),
        asked: Get(index),
        port,
    };
    vec![
        get(3, &FIVE_SIX_SEVEN, 4, Answers(vec![0])),
        get(3, &[0xf5, 0x81], 5, Refuses(3)),
        get(3, &FIVE_SIX_SEVEN, 6, Refuses(3)),
        get(3, &FIVE_SIX_SEVEN, 100, Refuses(3)),
        get(3, &FIVE_SIX_SEVEN, u32::MAX, Refuses(3)),
        get(8, &[0xff], 1, Refuses(3)),
        get(8, &[0xff], 2, Refuses(3)),
        get(64, &[0xff; 9], 1, Refuses(3)),
        get(64, &[0xff; 9], 2, Refuses(3)),
        get(1, &[], 0, Refuses(3)),
        get(0, &[], u32::MAX, Answers(vec![0])),
    ]
}

fn range_past_the_end() -> Vec<Case> {
    let past = |width, data: &[u8], start, count| Case {
        line: "`get_range` past the end",
        unpacker: New(width),
        data: data.to_vec(),
        asked: range(start, count),
        port: Refuses(3),
    };
    vec![
        past(3, &FIVE_SIX_SEVEN, 0, 6),
        past(3, &FIVE_SIX_SEVEN, 5, 1),
        past(3, &FIVE_SIX_SEVEN, 100, 1),
        past(1, &[], 0, 1),
        past(8, &[0xff; 64], 1, 64),
        past(33, &[0xff; 8], 0, 2),
        past(64, &[0xff; 15], 0, 2),
    ]
}

/// The largest index lies in data of half a GiB, of which only the first page is ever touched.
fn wrapping_ranges() -> Vec<Case> {
    let from_the_last = |width, data, count, port| Case {
        line: "`get_range` past 2^32",
        unpacker: New(width),
        data,
        asked: range(u32::MAX, count),
        port,
    };
    let mut large = vec![0; (1 << 29) + 1];
    large[0] = 1;
    vec![
        from_the_last(1, large, 2, Answers(vec![0, 0])),
        from_the_last(0, vec![], 2, Answers(vec![0, 0])),
        from_the_last(3, FIVE_SIX_SEVEN.to_vec(), 2, Refuses(3)),
        from_the_last(3, FIVE_SIX_SEVEN.to_vec(), 0, Answers(vec![])),
    ]
}

fn empty_past_the_data() -> Vec<Case> {
    alike(
        "search, an empty id range past the data",
        Answers(vec![]),
        vec![
            (New(3), search(0, 5..5)),
            (New(3), search(0, 6..6)),
            (New(3), search(0, 600..7)),
            (New(32), search(0, 1..1)),
            (New(33), search(0, 600..600)),
        ],
    )
}

fn above_every_value() -> Vec<Case> {
    alike(
        "search, a lower bound above 2^32 - 1",
        Refuses(3),
        vec![
            (New(3), search(1 << 32, 0..6)),
            (New(32), search(1 << 32, 7..9)),
            (New(33), search(1 << 32, 0..1)),
        ],
    )
}

fn near_the_last_index() -> Vec<Case> {
    let to_the_last = |start| Case {
        line: "search, a start of 2^32 - 40 or more",
        unpacker: New(0),
        data: vec![],
        asked: search(0, start..u32::MAX),
        port: Answers((start..u32::MAX).map(u64::from).collect()),
    };
    vec![
        to_the_last(u32::MAX - 40),
        to_the_last(u32::MAX - 39),
        to_the_last(u32::MAX - 1),
    ]
}

fn search_past_the_data() -> Vec<Case> {
    let without_room = Asked::Search {
        lowest: 0,
        ids: 0..6,
        room: 0,
    };
    alike(
        "search, ids that reach past the data",
        Refuses(3),
        vec![
            (New(3), search(0, 0..6)),
            (New(3), search(7, 0..100)),
            (New(3), search(0, 100..101)),
            (New(3), without_room),
            (New(32), search(0, 0..1)),
            (New(33), search(0, 0..1)),
            (New(33), search(0, 0..2)),
            (New(64), search(0, 0..1)),
        ],
    )
}

fn few_positions() -> Vec<Case> {
    let search = |width, data: &[u8], lowest, ids, room| Case {
        line: "search, fewer positions than ids",
        unpacker: New(width),
        data: data.to_vec(),
        asked: Asked::Search { lowest, ids, room },
        port: Refuses(4),
    };
    vec![
        search(3, &FIVE_SIX_SEVEN, 0, 0..3, 2),
        search(3, &FIVE_SIX_SEVEN, 7, 0..3, 2),
        search(3, &FIVE_SIX_SEVEN, 9, 0..3, 0),
        search(3, &FIVE_SIX_SEVEN, 1 << 32, 0..3, 2),
        search(3, &[0xff; 30], 0, 1..80, 78),
        search(33, &[0xff; 9], 0, 0..2, 1),
    ]
}
