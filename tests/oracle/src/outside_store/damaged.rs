//! Forged stores and entries that document 01 calls damaged, and the limit of blocks.

use super::forging::{entry, sealed_and_waiting, thousands, two_blocks};
use super::{History, packed, span};

pub fn histories() -> Vec<History> {
    let mut all: Vec<History> = STORES.iter().map(damaged_store).collect();
    all.extend(ENTRIES.iter().map(damaged_entry));
    all.extend([reopened(), at_the_limit()]);
    all
}

/// Fields by which a store is damaged: by one clause of document 01's "Damaged", and by no other where that
/// can be.
struct Fields {
    so_far: &'static str,
    bytes: usize,
    entries: usize,
    fields: [u64; 4],
}

const STORES: [Fields; 13] = [
    fields("a block, 2 waiting; forged: 128 waiting", [112, 1, 128, 0]),
    fields(
        "a block, 2 waiting; forged: 2^64 - 1 waiting",
        [112, 1, u64::MAX, 0],
    ),
    fields(
        "a block, 2 waiting; forged: 16777217 blocks",
        [112, 16_777_217, 2, 0],
    ),
    // Twice as many, and 1,024 times as many, wrap to 0.
    fields(
        "a block, 2 waiting; forged: 2^63 blocks, 0 bytes used",
        [0, 1 << 63, 2, 0],
    ),
    Fields {
        bytes: 1_033,
        ..fields(
            "a block, 2 waiting; forged: 1025 bytes used",
            [1_025, 1, 2, 0],
        )
    },
    fields(
        "a block, 2 waiting; forged: 0 blocks, 1 byte used",
        [1, 0, 2, 0],
    ),
    fields("a block, 2 waiting; forged: 113 bytes used", [113, 1, 2, 0]),
    // With eight more, this wraps to 0.
    fields(
        "a block, 2 waiting; forged: 2^64 - 8 bytes used",
        [u64::MAX - 7, 1, 2, 0],
    ),
    Fields {
        entries: 3,
        ..fields("a block, 2 waiting; forged: 2 blocks", [112, 2, 2, 0])
    },
    fields(
        "a block, 2 waiting; forged: 0 waiting, last length 128",
        [112, 1, 0, 128],
    ),
    fields(
        "a block, 2 waiting; forged: 0 waiting, last length 2^64 - 1",
        [112, 1, 0, u64::MAX],
    ),
    fields("a block, 2 waiting; forged: last length 5", [112, 1, 2, 5]),
    fields(
        "a block, 2 waiting; forged: 0 bytes used, 0 blocks, 0 waiting, last length 5",
        [0, 0, 0, 5],
    ),
];

/// In areas that the block fills.
const fn fields(so_far: &'static str, fields: [u64; 4]) -> Fields {
    Fields {
        so_far,
        bytes: 120,
        entries: 2,
        fields,
    }
}

fn damaged_store(forged: &Fields) -> History {
    let what = "damaged by forged fields";
    let mut history = sealed_and_waiting(forged.bytes, forged.entries);
    history.so_far = forged.so_far;
    history.forge_fields(forged.fields);
    history.add(&[7], 0, 8);
    history.flush(8);
    history.count(&[8]);
    history.get(span(0, 1), &[8]);
    history.range(span(0, 2), 8);
    history.search(0, 2, 2, &[8]);
    history.row_of_all(what, "add, flush, count, get, range and search", 6);
    // Before an empty range, an index past every count and too few positions.
    history.range(span(0, 0), 8);
    history.search(1, 1, 0, &[8]);
    history.get(span(u64::MAX, 1), &[8]);
    history.search(0, 2, 1, &[8]);
    let bytes = [packed(&thousands(), 7, 1000), vec![0; 8]].concat();
    history.look(forged.fields, &[5, 6], &[entry(0, 7), 1000], &bytes);
    // With its own fields the store is read as before.
    history.forge_fields([112, 1, 2, 0]);
    history.read(0, &[thousands(), vec![5, 6]].concat());
    history
}

/// First words by which the second block's entry is damaged, in a store of 128 used bytes; its own has
/// offset 112 and width 1.
const ENTRIES: [(&str, u64); 10] = [
    ("2 blocks; forged: width 57", entry(112, 57)),
    ("2 blocks; forged: width 63", entry(112, 63)),
    ("2 blocks; forged: width 65", entry(112, 65)),
    ("2 blocks; forged: width 255", entry(112, 255)),
    ("2 blocks; forged: width 57, offset 0", entry(0, 57)),
    ("2 blocks; forged: width 2", entry(112, 2)),
    ("2 blocks; forged: width 64", entry(112, 64)),
    ("2 blocks; forged: offset 113", entry(113, 1)),
    ("2 blocks; forged: width 0, offset 129", entry(129, 0)),
    ("2 blocks; forged: offset 2^56 - 1", entry((1 << 56) - 1, 1)),
];

fn damaged_entry((so_far, word): &(&'static str, u64)) -> History {
    let what = "the second block damaged by a forged entry";
    let (mut history, mut bytes) = two_blocks();
    history.so_far = so_far;
    history.forge_entry(2, *word);
    history.get(span(128, 1), &[8]);
    history.get(span(255, 1), &[8]);
    history.range(span(127, 2), 8);
    history.range(span(255, 2), 8);
    history.search(127, 129, 2, &[8]);
    history.search(0, 258, 258, &[8]);
    history.row_of_all(what, "get, range and search that touch it", 6);
    // Other refusals come before it, and what does not touch it is answered.
    history.get(span(258, 1), &[7]);
    history.range(span(128, 131), 7);
    history.search(127, 129, 1, &[4]);
    history.range(span(128, 0), 0);
    history.search(128, 128, 0, &[0]);
    history.count(&[0, 258]);
    history.read(0, &thousands());
    history.read(256, &[5, 6]);
    history.search(126, 128, 2, &[0, 126, 127]);
    history.search(256, 258, 2, &[0, 256, 257]);
    let mut entries = vec![entry(0, 7), 1000, *word, 20];
    let as_before = [&bytes[..], &[0; 8]].concat();
    history.look([128, 2, 2, 0], &[5, 6], &entries, &as_before);
    // Adding and sealing read no entry.
    history.add(&[7], 1, 0);
    history.flush(0);
    bytes.extend(packed(&[5, 6, 7], 2, 5));
    bytes.extend([0; 8]);
    entries.extend([entry(128, 2), 5]);
    history.look([129, 3, 0, 3], &[], &entries, &bytes);
    history.read(256, &[5, 6, 7]);
    history
}

/// The March night once more: who forges the last length gets no padding either. 128 values of 4 bits would
/// take more than the 59 bytes used.
fn reopened() -> History {
    let what = "a closed store opened again by a forged last length";
    let terms: Vec<u64> = (0..117).map(|i| i % 13).collect();
    let mut history = History::new(80, 4);
    history.make(0);
    history.add(&terms, 117, 0);
    history.flush(0);
    history.so_far = "117 terms 0 to 12, a flush; forged: last length 0";
    history.forge_fields([59, 1, 0, 0]);
    history.count(&[0, 128]);
    history.row(what, "how many values");
    history.get(span(0, 1), &[8]);
    history.get(span(117, 1), &[8]);
    history.range(span(117, 11), 8);
    history.search(0, 128, 128, &[8]);
    history.row_of_all(what, "get, range and search in the block", 4);
    history.add(&[20], 1, 0);
    history.row(what, "add 20");
    history.read(128, &[20]);
    history.row(what, "1 values from 128");
    let bytes = [packed(&terms, 4, 0), vec![0; 8]].concat();
    history.look([59, 1, 1, 0], &[20], &[entry(0, 4), 0], &bytes);
    history.forge_fields([59, 1, 0, 117]);
    history.read(0, &terms);
    history
}

/// With as many blocks as there may be. The entry words have room for one more.
fn at_the_limit() -> History {
    let what = "more than 16,777,216 blocks";
    let mut history = History::new(1_000, 33_554_434);
    history.so_far = "forged: 0 bytes used, 16777216 blocks, 127 waiting";
    history.forge_fields([0, 16_777_216, 127, 0]);
    history.add(&[7], 0, 5);
    history.row(what, "add");
    history.flush(5);
    history.row(what, "flush");
    history
}
