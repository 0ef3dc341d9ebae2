//! Forged stores, entries and bytes that document 01 does not call damaged: they are read by its
//! definitions.

use super::forging::{entry, sealed_and_waiting, thousands, two_blocks};
use super::{History, packed, span};

const FIELDS: &str = "forged fields, not damaged";
const ENTRY: &str = "a forged entry, not damaged";

pub fn histories() -> Vec<History> {
    vec![
        just_sound(),
        base_that_wraps(),
        base_that_wraps_in_a_full_block(),
        width_or_offset(),
        width_or_offset_of_a_full_block(),
        bytes(),
        more_waiting(),
        more_used(),
    ]
}

/// Each number of "Damaged" at the last place where it is none.
fn just_sound() -> History {
    let bytes = [packed(&thousands(), 7, 1000), vec![0; 8]].concat();
    let entries = [entry(0, 7), 1000];
    let mut history = sealed_and_waiting(1_032, 4);
    history.so_far = "a block, 2 waiting; forged: 1024 bytes used, 127 waiting";
    history.forge_fields([1_024, 1, 127, 0]);
    history.count(&[0, 255]);
    history.row(FIELDS, "how many values");
    let waiting = [&[5, 6], &[0; 125][..]].concat();
    history.read(0, &[thousands(), waiting].concat());
    history.so_far = "a block, 2 waiting; forged: 0 waiting, last length 127";
    history.forge_fields([112, 1, 0, 127]);
    history.count(&[0, 127]);
    history.row(FIELDS, "how many values");
    history.read(0, &thousands()[..127]);
    history.get(span(127, 1), &[7]);
    history.add(&[7], 0, 6);
    history.row(FIELDS, "add 7");
    history.look([112, 1, 0, 127], &[5, 6], &entries, &bytes);
    // Every byte of the second entry is still a5, and so is its width.
    history.so_far = "a block, 2 waiting; forged: 2 blocks";
    history.forge_fields([112, 2, 2, 0]);
    history.count(&[0, 258]);
    history.row(FIELDS, "how many values");
    history.get(span(128, 1), &[8]);
    history.row(FIELDS, "get of 128");
    history.read(256, &[5, 6]);
    history.row(FIELDS, "2 values from 256");
    history.read(0, &thousands());
    history.look([112, 2, 2, 0], &[5, 6], &entries, &bytes);
    history
}

/// "value = base + difference modulo 2^64"
fn base_that_wraps() -> History {
    let mut history = History::new(9, 2);
    history.make(0);
    history.add(&[5, 6, 7], 3, 0);
    history.flush(0);
    history.so_far = "5, 6, 7 added, a flush; forged: base 2^64 - 1";
    history.forge_entry(1, u64::MAX);
    let values = [u64::MAX, 0, 1];
    history.read(0, &values);
    history.row(ENTRY, "3 values from 0");
    history.find(0, 1, &values);
    history.row(ENTRY, "search of values 0 to 1");
    history.find(2, u64::MAX, &values);
    history.row(ENTRY, "search of values from 2");
    history.so_far = "5, 6, 7 added, a flush; forged: base 2^64 - 3";
    history.forge_entry(1, u64::MAX - 2);
    history.read(0, &[u64::MAX - 2, u64::MAX - 1, u64::MAX]);
    history.row(ENTRY, "3 values from 0");
    let bytes = [packed(&[5, 6, 7], 2, 5), vec![0; 8]].concat();
    history.look([1, 1, 0, 3], &[], &[entry(0, 2), u64::MAX - 2], &bytes);
    history
}

fn base_that_wraps_in_a_full_block() -> History {
    let mut history = sealed_and_waiting(120, 2);
    history.so_far = "1000 to 1127 sealed, 5, 6 waiting; forged: base 2^64 - 64";
    let base = u64::MAX - 63;
    history.forge_entry(1, base);
    let mut values: Vec<u64> = (0..128).map(|i| base.wrapping_add(i)).collect();
    values.extend([5, 6]);
    history.read(0, &values);
    history.row(ENTRY, "130 values from 0");
    history.find(0, 10, &values);
    history.row(ENTRY, "search of values 0 to 10");
    history.find(5, u64::MAX - 5, &values);
    history.find(u64::MAX - 1, u64::MAX, &values);
    history.find(100, 50, &values);
    history
}

/// A closed store whose one block is the bytes 00 11 .. ff: 16 values of 8 bits.
fn sixteen_bytes(room: usize) -> History {
    let mut history = History::new(room, 2);
    history.make(0);
    let values: Vec<u64> = (0..16).map(|i| i * 0x11).collect();
    history.add(&values, 16, 0);
    history.flush(0);
    history
}

fn width_or_offset() -> History {
    let mut history = sixteen_bytes(24);
    history.forge_fields([16, 1, 0, 2]);
    for (so_far, word, values) in [
        (
            "the bytes 00 11 .. ff sealed; forged: last length 2, width 64",
            entry(0, 64),
            [0x7766_5544_3322_1100, 0xffee_ddcc_bbaa_9988],
        ),
        (
            "the bytes 00 11 .. ff sealed; forged: last length 2, width 56",
            entry(0, 56),
            [0x66_5544_3322_1100, 0xdd_ccbb_aa99_8877],
        ),
        (
            "the bytes 00 11 .. ff sealed; forged: last length 2, width 56, offset 2",
            entry(2, 56),
            [0x88_7766_5544_3322, 0xff_eedd_ccbb_aa99],
        ),
        (
            "the bytes 00 11 .. ff sealed; forged: last length 2, offset 14",
            entry(14, 8),
            [0xee, 0xff],
        ),
        (
            "the bytes 00 11 .. ff sealed; forged: last length 2, width 0, offset 16",
            entry(16, 0),
            [0, 0],
        ),
    ] {
        history.so_far = so_far;
        history.forge_entry(0, word);
        history.read(0, &values);
        history.row(ENTRY, "2 values from 0");
        history.find(values[1], u64::MAX, &values);
    }
    history
}

/// Of 128 values, as many as a read takes at once and more.
fn width_or_offset_of_a_full_block() -> History {
    let (mut history, bytes) = two_blocks();
    for (offset, width) in [(0, 8), (16, 7), (1, 7), (64, 4), (115, 0)] {
        history.forge_entry(0, entry(offset, width));
        let values = unpacked(&bytes[offset as usize..], width, 1000);
        history.read(0, &values);
        history.find(1003, 1020, &values);
    }
    history.so_far = "2 blocks; forged: base 0, width 8 of the first";
    history.forge_entry(0, entry(0, 8));
    history.forge_entry(1, 0);
    let values: Vec<u64> = bytes.iter().copied().map(u64::from).collect();
    history.read(125, &[&values[125..], &[20, 21]].concat());
    history.row(ENTRY, "5 values from 125");
    history.read(0, &values);
    history
}

/// A block of 128 values by the bit rule.
fn unpacked(bytes: &[u8], width: u64, base: u64) -> Vec<u64> {
    let bit = |at: u64| u64::from(bytes[at as usize / 8] >> (at % 8) & 1);
    let difference = |place: u64| -> u64 { (0..width).map(|i| bit(place * width + i) << i).sum() };
    (0..128).map(|place| base + difference(place)).collect()
}

/// A block's bytes are read as they are; the eight behind the blocks are no part of any value.
fn bytes() -> History {
    let what = "forged bytes";
    let mut history = sixteen_bytes(25);
    history.forge_fields([16, 1, 0, 2]);
    history.forge_entry(0, entry(2, 56));
    for place in 16..24 {
        history.forge_byte(place, 0xff);
    }
    history.so_far = "the bytes 00 11 .. ff sealed; forged: last length 2, width 56, offset 2, ff in the eight bytes behind the block";
    history.read(0, &[0x88_7766_5544_3322, 0xff_eedd_ccbb_aa99]);
    history.row(what, "2 values from 0");
    history.so_far = "the bytes 00 11 .. ff sealed; forged: last length 2, width 56, offset 2, ff in the eight bytes behind the block, 00 in its last";
    history.forge_byte(15, 0);
    history.read(0, &[0x88_7766_5544_3322, 0x00_eedd_ccbb_aa99]);
    history.row(what, "2 values from 0");
    let mut bytes: Vec<u8> = (0..15).map(|i| i * 0x11).collect();
    bytes.push(0);
    bytes.extend([0xff; 8]);
    history.look([16, 1, 0, 2], &[], &[entry(2, 56), 0], &bytes);
    history
}

/// Values are sealed as they stand in the waiting array.
fn more_waiting() -> History {
    let mut history = History::new(72, 2);
    history.make(0);
    history.add(&[5, 6], 2, 0);
    history.so_far = "5, 6 added; forged: 127 waiting";
    history.forge_fields([0, 0, 127, 0]);
    let mut values = [&[5, 6], &[0; 125][..]].concat();
    history.read(0, &values);
    history.row(FIELDS, "127 values from 0");
    history.add(&[9], 1, 0);
    history.row(FIELDS, "add 9, which seals a block");
    values.push(9);
    history.read(0, &values);
    history.row(FIELDS, "128 values from 0");
    history.sealed_once(&values, 64, 4, 0, 0);
    history
}

/// The next block is sealed at the used offset.
fn more_used() -> History {
    let mut history = History::new(29, 4);
    history.make(0);
    history.add(&[&[3; 128], &[5, 6][..]].concat(), 130, 0);
    history.so_far = "128 threes and 5, 6 added; forged: 20 bytes used; a flush";
    history.forge_fields([20, 1, 2, 0]);
    history.flush(0);
    history.read(126, &[3, 3, 5, 6]);
    history.row(FIELDS, "4 values from 126");
    let bytes = [&[0; 8][..], &[0xa5; 12], &[2], &[0; 8]].concat();
    history.look([21, 2, 0, 2], &[], &[0, 3, entry(20, 1), 5], &bytes);
    history
}
