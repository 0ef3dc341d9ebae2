//! The questions to a packer.

use super::Question;
use super::pack::Port::{Emits, Refuses};
use super::pack::{Case, flush, write};
use crate::pack::NEW;

pub fn questions() -> Vec<Box<dyn Question>> {
    [
        too_wide(),
        bad_widths(),
        full_outputs(),
        order_of_checks(),
        forged(),
    ]
    .into_iter()
    .flatten()
    .map(|case| Box::new(case) as Box<dyn Question>)
    .collect()
}

fn too_wide() -> Vec<Case> {
    let case = |steps, stream: &[u8]| Case {
        line: "a value of 2^width or more",
        packer: NEW,
        steps,
        stream: stream.to_vec(),
    };
    vec![
        // into the value after it
        case(
            vec![
                write(8, 3, Refuses(2)),
                write(1, 3, Emits(0)),
                flush(Emits(1)),
            ],
            &[1],
        ),
        // into bits that no value has
        case(vec![write(9, 3, Refuses(2)), flush(Emits(0))], &[]),
        // lost
        case(vec![write(256, 3, Refuses(2)), flush(Emits(0))], &[]),
        case(
            vec![
                write(1, 0, Refuses(2)),
                write(4, 3, Emits(0)),
                flush(Emits(1)),
            ],
            &[4],
        ),
        // where a word becomes complete, and past it
        case(
            vec![
                write(0, 60, Emits(0)),
                write(0x1f, 4, Refuses(2)),
                flush(Emits(8)),
            ],
            &[0; 8],
        ),
        case(
            vec![
                write(0, 60, Emits(0)),
                write(0x100, 8, Refuses(2)),
                flush(Emits(8)),
            ],
            &[0; 8],
        ),
        case(vec![write(1 << 63, 63, Refuses(2)), flush(Emits(0))], &[]),
    ]
}

fn bad_widths() -> Vec<Case> {
    let case = |steps, stream: &[u8]| Case {
        line: "a width above 64 written",
        packer: NEW,
        steps,
        stream: stream.to_vec(),
    };
    vec![
        case(vec![write(5, 65, Refuses(1)), flush(Emits(0))], &[]),
        case(
            vec![
                write(1, 129, Refuses(1)),
                write(2, 3, Emits(0)),
                flush(Emits(1)),
            ],
            &[2],
        ),
        case(vec![write(1, 255, Refuses(1)), flush(Emits(0))], &[]),
        case(
            vec![
                write(1, 4, Emits(0)),
                write(5, 66, Refuses(1)),
                flush(Emits(1)),
            ],
            &[1],
        ),
    ]
}

/// A refusal leaves the packer and the output as they were, so what comes after it goes on as if it had
/// not been asked.
fn full_outputs() -> Vec<Case> {
    let case = |steps, stream: &[u8]| Case {
        line: "an output that is full",
        packer: NEW,
        steps,
        stream: stream.to_vec(),
    };
    vec![
        case(
            vec![
                write(5, 64, Refuses(4)).into(7),
                write(6, 64, Emits(8)),
                flush(Emits(0)),
            ],
            &[6, 0, 0, 0, 0, 0, 0, 0],
        ),
        case(
            vec![
                write(1, 60, Emits(0)).into(0),
                write(3, 8, Refuses(4)).into(0),
                write(4, 8, Emits(8)),
                flush(Emits(1)).into(1),
            ],
            &[1, 0, 0, 0, 0, 0, 0, 0x40, 0],
        ),
        case(
            vec![
                write(1, 50, Emits(0)).into(0),
                write(1, 20, Refuses(4)).into(7),
                write(2, 6, Emits(0)).into(0),
                flush(Emits(7)).into(7),
            ],
            &[1, 0, 0, 0, 0, 0, 8],
        ),
        case(
            vec![
                write(1, 9, Emits(0)),
                flush(Refuses(4)).into(1),
                flush(Emits(2)).into(2),
                flush(Emits(0)).into(0),
            ],
            &[1, 0],
        ),
    ]
}

fn order_of_checks() -> Vec<Case> {
    vec![Case {
        line: "the checks of a write: 1, 2, 4",
        packer: NEW,
        steps: vec![
            write(0, 63, Emits(0)),
            write(8, 65, Refuses(1)).into(0),
            write(8, 3, Refuses(2)).into(0),
            write(1, 1, Refuses(4)).into(0),
            write(1, 1, Emits(8)),
        ],
        stream: vec![0, 0, 0, 0, 0, 0, 0, 0x80],
    }]
}

fn forged() -> Vec<Case> {
    let case = |packer, steps, stream: &[u8]| Case {
        line: "a packer with forged fields",
        packer,
        steps,
        stream: stream.to_vec(),
    };
    // Refused before a bad width, a value too wide and an output without room are.
    let all_refused = || {
        vec![
            write(0, 0, Refuses(8)),
            write(0, 65, Refuses(8)).into(0),
            write(8, 3, Refuses(8)).into(0),
            flush(Refuses(8)),
            flush(Refuses(8)).into(0),
        ]
    };
    vec![
        case([0, 64], all_refused(), &[]),
        case([u64::MAX, u64::MAX], all_refused(), &[]),
        case([4, 2], all_refused(), &[]),
        case([1, 0], all_refused(), &[]),
        case([1 << 63, 63], all_refused(), &[]),
        case([3, 2], vec![write(1, 3, Emits(0)), flush(Emits(1))], &[7]),
        case(
            [(1 << 63) - 1, 63],
            vec![
                write(1, 1, Refuses(4)).into(7),
                write(1, 1, Emits(8)),
                flush(Emits(0)).into(0),
            ],
            &[0xff; 8],
        ),
    ]
}
