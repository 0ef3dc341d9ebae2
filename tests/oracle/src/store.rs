//! Histories of the blocked store, drawn and taken on the Rust's.

use std::io::{self, Write};

use crate::draw::{Draw, spread};
use crate::history::{self, BLOCK_SIZE, Compared, Recorder, Rooms, Search, Span};

/// The lengths around which a block is sealed, and longer ones.
const LENGTHS: [usize; 12] = [0, 1, 2, 127, 128, 129, 255, 256, 257, 384, 1_000, 2_100];

/// Up to so many values every question is asked of all of them; of more only some, so that a history is not long.
const ALL: usize = 450;

struct Plan {
    values: Vec<u64>,
    /// A flush comes at the end, whatever waits then.
    closes: bool,
}

pub fn write(count: u64, mut draw: Draw, out: &mut impl Write) -> io::Result<()> {
    let mut compared = Compared::default();
    let jump = around(&mut draw, 56);
    let edges = spread(edges(&mut draw), count);
    // The width's jump from 56 to 64 stands in every sample.
    let mut plans = jump.into_iter().chain(edges);
    for _ in 0..count {
        let plan = plans.next().unwrap_or_else(|| random(&mut draw));
        let recorder = record(&mut draw, &plan);
        let Rooms { bytes, entries } = recorder.rooms();
        // Half of the areas are no larger than they must be.
        let rooms = Rooms {
            bytes: bytes + (draw.below(2) * draw.below(40)) as usize,
            entries: entries + (draw.below(2) * draw.below(5)) as usize,
        };
        history::write(&recorder.steps, rooms, &mut compared, out)?;
    }
    let Compared {
        answers,
        values,
        ids,
    } = compared;
    eprintln!(
        "oracle: {count} histories with {answers} numbers as answers, {values} of them values read, {ids} ids found"
    );
    Ok(())
}

/// The amplitudes around a power of two, in blocks that are full, one short of it and one past it.
fn around(draw: &mut Draw, width: u32) -> Vec<Plan> {
    let mut plans = Vec::new();
    for (n, amplitude) in amplitudes_around(width).into_iter().enumerate() {
        for length in [2, 127, 128, 129] {
            let mut values = of_amplitude(draw, amplitude, BLOCK_SIZE.min(length));
            values.extend(of_sort(draw, SORTS - 1, length - values.len()));
            let closes = n != 1;
            plans.push(Plan { values, closes });
        }
    }
    plans
}

/// Around every power of two; and every length with values of every sort.
fn edges(draw: &mut Draw) -> Vec<Plan> {
    let mut plans: Vec<Plan> = (0..=64).flat_map(|width| around(draw, width)).collect();
    for length in LENGTHS {
        for sort in 0..SORTS {
            for closes in [false, true] {
                let values = of_sort(draw, sort, length);
                plans.push(Plan { values, closes });
            }
        }
    }
    plans
}

/// 2^width less one, itself, and one more, where these fit.
fn amplitudes_around(width: u32) -> Vec<u64> {
    let power = 1u128 << width;
    [power - 1, power, power + 1]
        .into_iter()
        .filter_map(|n| u64::try_from(n).ok())
        .collect()
}

/// Values whose highest less the lowest is the amplitude, both somewhere among them.
fn of_amplitude(draw: &mut Draw, amplitude: u64, length: usize) -> Vec<u64> {
    let largest = u64::MAX - amplitude;
    let lowest = match draw.below(4) {
        0 => 0,
        1 => largest,
        _ => draw.any_width().min(largest),
    };
    let inside = |draw: &mut Draw| match draw.below(4) {
        0 => lowest,
        1 => lowest + amplitude,
        _ => lowest + draw.any_width().min(amplitude),
    };
    let mut values: Vec<u64> = (0..length).map(|_| inside(draw)).collect();
    if length > 1 {
        let at = draw.below(length as u64 - 1) as usize;
        values[at] = lowest;
        let after = at + 1 + draw.below((length - at - 1) as u64) as usize;
        values[after] = lowest + amplitude;
    }
    values
}

/// How many sorts of values there are.
const SORTS: u64 = 7;

fn of_sort(draw: &mut Draw, sort: u64, length: usize) -> Vec<u64> {
    let n = length as u64;
    let first = draw.any_width();
    match sort {
        // all equal
        0 => vec![first; length],
        // few and small, one after the other
        1 => {
            let terms = 1 + draw.below(200);
            (0..n).map(|i| i % terms).collect()
        }
        // rising by steps, as times of day do
        2 => {
            let step = draw.below(1 << 20);
            let first = first.min(u64::MAX - step * n);
            (0..n).map(|i| first + i * step).collect()
        }
        // falling from the largest
        3 => (0..n).map(|i| u64::MAX - i).collect(),
        // of one width
        4 => {
            let bits = draw.below(65) as u8;
            (0..n).map(|_| draw.of_width(bits)).collect()
        }
        // of any width
        5 => (0..n).map(|_| draw.any_width()).collect(),
        // each block of an amplitude of its own
        _ => {
            let mut values = Vec::new();
            while values.len() < length {
                let around = amplitudes_around(draw.below(65) as u32);
                let amplitude = draw.one_of(&around);
                let block = BLOCK_SIZE.min(length - values.len());
                values.extend(of_amplitude(draw, amplitude, block));
            }
            values
        }
    }
}

/// Short histories mostly, many around the seals, thousands of values now and then.
fn random(draw: &mut Draw) -> Plan {
    let length = match draw.below(400) {
        0 => 1_000 + draw.below(1_100),
        1..=12 => draw.below(ALL as u64),
        13..=52 => draw.below(300),
        53..=112 => 120 + draw.below(16),
        113..=132 => 250 + draw.below(12),
        _ => draw.below(40),
    };
    let sort = draw.below(SORTS);
    Plan {
        values: of_sort(draw, sort, length as usize),
        closes: draw.below(4) > 0,
    }
}

/// The values are added in up to four parts. Between them the store is asked, and flushed where that closes
/// nothing; at the end it is asked before the flush and after it.
fn record(draw: &mut Draw, plan: &Plan) -> Recorder {
    let values = &plan.values;
    let is_long = values.len() > ALL;
    let mut recorder = Recorder::new();
    let mut at = 0;
    for _ in 0..draw.below(4) {
        let next = at + draw.below((values.len() - at) as u64 + 1) as usize;
        // Half of the parts end where a block does.
        let next = match draw.below(2) {
            0 => at.max(next / BLOCK_SIZE * BLOCK_SIZE),
            _ => next,
        };
        recorder.add(&values[at..next]);
        at = next;
        if at % BLOCK_SIZE == 0 && draw.below(2) == 0 {
            recorder.flush();
        }
        ask_some(draw, &mut recorder);
        if !is_long && draw.below(8) == 0 {
            recorder.look();
        }
    }
    recorder.add(&values[at..]);
    if !plan.closes || (!is_long && draw.below(4) == 0) {
        ask_all(draw, &mut recorder);
    }
    if plan.closes {
        recorder.flush();
        ask_all(draw, &mut recorder);
        if !is_long && draw.below(8) == 0 {
            recorder.flush();
            recorder.look();
        }
    }
    recorder
}

fn ask_some(draw: &mut Draw, recorder: &mut Recorder) {
    recorder.count();
    let span = any_span(draw, recorder, 40);
    recorder.get(span);
    let span = any_span(draw, recorder, 40);
    recorder.range(span);
    search(draw, recorder, 40);
}

/// Every index is read, by itself and in ranges; of a long store not in one range.
fn ask_all(draw: &mut Draw, recorder: &mut Recorder) {
    let count = recorder.values().len();
    let whole = Span {
        start: 0,
        count: count as u64,
    };
    recorder.count();
    recorder.get(whole);
    if count <= ALL {
        recorder.range(whole);
    }
    let most = ALL as u64 / 2;
    let span = any_span(draw, recorder, most);
    recorder.range(span);
    for _ in 0..2 {
        search(draw, recorder, most);
    }
    recorder.look();
}

/// Up to so many of the values, from the first on, to the last, or anywhere.
fn any_span(draw: &mut Draw, recorder: &Recorder, most: u64) -> Span {
    let length = recorder.values().len() as u64;
    let count = draw.below(length.min(most) + 1);
    let start = match draw.below(4) {
        0 => 0,
        1 => length - count,
        _ => draw.below(length - count + 1),
    };
    Span { start, count }
}

fn search(draw: &mut Draw, recorder: &mut Recorder, most: u64) {
    let Span { start, count } = any_span(draw, recorder, most);
    let values = recorder.values();
    let met = match values {
        [] => 0,
        _ => draw.one_of(values),
    };
    let other = match values {
        [] => draw.word(),
        _ => draw.one_of(values),
    };
    let (lowest, highest) = match draw.below(8) {
        0 => (0, u64::MAX),
        1 => (met, met),
        2 => (met.max(other), met.min(other)),
        3 => (0, met),
        4 => (met, u64::MAX),
        5 => (met.saturating_add(1), u64::MAX),
        6 => (draw.any_width(), draw.word()),
        _ => (met.min(other), met.max(other)),
    };
    // An empty range may also end before it starts.
    let end = match count {
        0 => start - draw.below(start + 1),
        _ => start + count,
    };
    recorder.search(Search {
        lowest,
        highest,
        start,
        end,
        room: count + draw.below(2) * draw.below(40),
    });
}
