//! Numbers 5 to 8: form, names, roles and down peers, for every op. `Run::call`
//! also checks that a refused call alters nothing.

mod common;

use common::*;
use reference::form::{read_step, Step};

/// The bytes in use after each op: 1 peer, 2 other, 3 period, 4 item.
const USED: [&[usize]; 19] = [
    &[4],
    &[1, 4],
    &[1, 4],
    &[1, 2, 3, 4],
    &[1, 4],
    &[3, 4],
    &[1],
    &[1, 2, 3],
    &[1, 3],
    &[1, 4],
    &[1],
    &[4],
    &[1, 3, 4],
    &[1, 3, 4],
    &[1, 3],
    &[1, 3],
    &[1],
    &[1],
    &[3],
];

#[test]
fn form() {
    let mut run = four_peers();
    for length in (0..=40).filter(|length| *length != 13) {
        assert_eq!(run.call_bytes(&vec![1; length]), 5);
    }
    for op in 0..=255u8 {
        for at in 1..13 {
            let mut bytes = [0; 13];
            bytes[0] = op;
            bytes[at] = 1;
            let fits = match op {
                15 | 16 => at >= 5 || USED[op as usize - 1].contains(&at),
                1..=19 => USED[op as usize - 1].contains(&at),
                _ => false,
            };
            assert_eq!(read_step(&bytes).is_ok(), fits, "op {op} byte {at}");
            assert_eq!(run.call_bytes(&bytes) == 5, !fits, "op {op} byte {at}");
        }
    }
}

/// Each step is right but for one field, which is out of range.
#[test]
fn names_of_peers() {
    for peer in [0, 5, 255] {
        let mut run = hashed_by_three();
        for step in [
            Step::Hand { peer, item: 0 },
            Step::Sign { peer, item: 0 },
            Step::Take { peer, other: 1, period: 0, item: 0 },
            Step::Take { peer: 1, other: peer, period: 0, item: 0 },
            Step::Share { peer, item: 0 },
            Step::Close { peer },
            Step::Fetch { peer, other: 1, period: 0 },
            Step::Fetch { peer: 1, other: peer, period: 0 },
            Step::Hash { peer, period: 0 },
            Step::Hear { peer, entry: 0 },
            Step::Back { peer },
            Step::FalseSignature { peer, period: 0, item: 0 },
            Step::FalseShare { peer, period: 0, item: 0 },
            Step::FalseHash { peer, period: 0, board: 0 },
            Step::FalseBacking { peer, period: 0, board: 0 },
            Step::Down { peer },
            Step::Up { peer },
        ] {
            assert_eq!(run.call(step), 6, "{step:?}");
        }
    }
}

#[test]
fn names_of_items() {
    for item in [4, 64, 255] {
        let mut run = hashed_by_three();
        for step in [
            Step::Post { item },
            Step::Hand { peer: 1, item },
            Step::Sign { peer: 1, item },
            Step::Take { peer: 1, other: 2, period: 0, item },
            Step::Share { peer: 1, item },
            Step::Receipt { period: 0, item },
            Step::FalseSignature { peer: 4, period: 0, item },
            Step::FalseShare { peer: 4, period: 0, item },
        ] {
            assert_eq!(run.call(step), 6, "{step:?}");
        }
    }
}

#[test]
fn names_of_periods_boards_and_entries() {
    let mut run = hashed_by_three();
    for period in [2, 8, 255] {
        for step in [
            Step::Take { peer: 1, other: 2, period, item: 0 },
            Step::Receipt { period, item: 0 },
            Step::Fetch { peer: 1, other: 2, period },
            Step::Hash { peer: 1, period },
            Step::FalseSignature { peer: 4, period, item: 0 },
            Step::FalseShare { peer: 4, period, item: 0 },
            Step::FalseHash { peer: 4, period, board: 0 },
            Step::FalseBacking { peer: 4, period, board: 0 },
            Step::Clear { period },
        ] {
            assert_eq!(run.call(step), 6, "{step:?}");
        }
    }
    for bit in 4..64 {
        assert_eq!(run.call(Step::FalseHash { peer: 4, period: 0, board: 1 << bit }), 6);
        assert_eq!(run.call(Step::FalseBacking { peer: 4, period: 0, board: 1 << bit }), 6);
    }
    // An entry number is never out of range, only absent.
    assert_eq!(run.call(Step::Hear { peer: 1, entry: 255 }), 10);
    assert_eq!(run.call(Step::Publish { entry: 255 }), 10);
}

/// A step of each kind that needs an honest peer who is up.
fn by_honest(peer: usize, other: usize) -> [Step; 10] {
    [
        Step::Hand { peer, item: 0 },
        Step::Sign { peer, item: 0 },
        Step::Take { peer, other, period: 0, item: 0 },
        Step::Share { peer, item: 0 },
        Step::Close { peer },
        Step::Fetch { peer, other, period: 0 },
        Step::Fetch { peer: other, other: peer, period: 0 },
        Step::Hash { peer, period: 0 },
        Step::Hear { peer, entry: 0 },
        Step::Back { peer },
    ]
}

#[test]
fn roles() {
    let mut run = hashed_by_three();
    let others = [
        Step::FalseSignature { peer: 1, period: 0, item: 0 },
        Step::FalseShare { peer: 1, period: 0, item: 0 },
        Step::FalseHash { peer: 1, period: 0, board: 0 },
        Step::FalseBacking { peer: 1, period: 0, board: 0 },
        Step::Down { peer: 4 },
        Step::Up { peer: 4 },
    ];
    for step in by_honest(4, 1).into_iter().chain(others) {
        assert_eq!(run.call(step), 7, "{step:?}");
    }
}

#[test]
fn down() {
    let mut run = hashed_by_three();
    run.done(&[Step::Down { peer: 1 }, Step::Down { peer: 1 }]);
    for step in by_honest(1, 2) {
        assert_eq!(run.call(step), 8, "{step:?}");
    }
    // The signatures of a down peer are outside still.
    run.done(&[Step::Take { peer: 2, other: 1, period: 0, item: 0 }]);
    run.done(&[Step::Up { peer: 1 }, Step::Up { peer: 1 }, Step::Hear { peer: 1, entry: 0 }]);
}
