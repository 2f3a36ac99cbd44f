//! Numbers 9 to 13 for every op that has them, in the order in which they are
//! judged; 17 is in `given`. `Run::call` also checks that a refused call alters
//! nothing.

mod common;

use common::*;
use reference::form::{write_step, Step};
use reference::state::Entry;

/// Each op from its last number down: one hindrance after another is removed.
#[test]
fn order_of_hand_and_sign() {
    let mut run = four_peers();
    let hand = Step::Hand { peer: 1, item: 1 };
    let sign = Step::Sign { peer: 1, item: 1 };
    let mut odd = write_step(Step::Hand { peer: 9, item: 9 });
    odd[2] = 1;
    assert_eq!(run.call_bytes(&odd), 5);
    assert_eq!(run.call(Step::Hand { peer: 4, item: 9 }), 6);
    assert_eq!(run.call(Step::Hand { peer: 4, item: 1 }), 7);
    run.done(&[Step::Post { item: 0 }, Step::Hand { peer: 1, item: 0 }]);
    assert_eq!(run.call(hand), 10);
    assert_eq!(run.call(sign), 10);
    run.done(&[Step::Post { item: 1 }]);
    assert_eq!(run.call(hand), 11);
    run.done(&[Step::Close { peer: 1 }]);
    assert_eq!(run.call(hand), 11);
    assert_eq!(run.call(Step::Sign { peer: 1, item: 0 }), 10);
    run.done(&[Step::Hand { peer: 1, item: 0 }, Step::Sign { peer: 1, item: 0 }]);
    run.done(&[Step::Close { peer: 1 }]);
    assert_eq!(run.call(Step::Hand { peer: 1, item: 2 }), 9);
    assert_eq!(run.call(hand), 9);
    assert_eq!(run.call(sign), 9);
    run.done(&[Step::Down { peer: 1 }]);
    assert_eq!(run.call(hand), 8);
    assert_eq!(run.call(sign), 8);
}

#[test]
fn order_of_take() {
    let mut run = four_peers();
    run.done(&[Step::Post { item: 0 }]);
    let take = |period| Step::Take { peer: 1, other: 4, period, item: 0 };
    assert_eq!(run.call(take(1)), 9);
    assert_eq!(run.call(take(0)), 10);
    // A receipt share never counts as a signature.
    run.done(&[Step::FalseShare { peer: 4, period: 0, item: 0 }]);
    assert_eq!(run.call(take(0)), 10);
    run.done(&[Step::FalseSignature { peer: 4, period: 0, item: 0 }]);
    assert_eq!(run.call(take(0)), 0);
    assert_eq!(run.call(take(0)), 0);
    assert_eq!(run.state.peer(1).signers(0, 0), [4].into());
    // Its own signature, and one for a closed period, may be taken too.
    run.done(&[Step::Hand { peer: 1, item: 0 }, Step::Sign { peer: 1, item: 0 }]);
    run.done(&[Step::Close { peer: 1 }, Step::Close { peer: 1 }]);
    run.done(&[Step::Take { peer: 1, other: 1, period: 0, item: 0 }, take(0)]);
    assert_eq!(run.call(take(1)), 10);
}

#[test]
fn order_of_share_and_receipt() {
    let mut run = signed_by_three();
    assert_eq!(run.call(Step::Share { peer: 1, item: 1 }), 12);
    let receipt = Step::Receipt { period: 0, item: 0 };
    run.done(&[Step::Share { peer: 1, item: 0 }, Step::Share { peer: 2, item: 0 }]);
    // A signature never counts as a receipt share.
    run.done(&[Step::FalseSignature { peer: 4, period: 0, item: 0 }]);
    assert_eq!(run.call(receipt), 12);
    run.done(&[Step::FalseShare { peer: 4, period: 1, item: 0 }]);
    assert_eq!(run.call(receipt), 12);
    // Shares only for the open period: after the close there are no signers.
    run.done(&[Step::Close { peer: 3 }]);
    assert_eq!(run.call(Step::Share { peer: 3, item: 0 }), 12);
    run.done(&[Step::Close { peer: 3 }]);
    assert_eq!(run.call(Step::Share { peer: 3, item: 0 }), 9);
    run.done(&[Step::FalseShare { peer: 4, period: 0, item: 0 }, receipt, receipt]);
    assert_eq!(run.state.receipts, [(0, 0)].into());
}

/// A peer that holds t signers may share, though it never held the item.
#[test]
fn share_without_holding() {
    let mut run = signed_by_three();
    run.done(&[Step::FalseSignature { peer: 4, period: 1, item: 0 }]);
    run.done(&[Step::Close { peer: 1 }, Step::Close { peer: 2 }]);
    for peer in 1..=2 {
        run.done(&[Step::Hand { peer, item: 0 }, Step::Sign { peer, item: 0 }]);
    }
    run.done(&[Step::Close { peer: 3 }]);
    for other in [1, 2, 4] {
        run.done(&[Step::Take { peer: 3, other, period: 1, item: 0 }]);
    }
    run.done(&[Step::Share { peer: 3, item: 0 }]);
}

#[test]
fn order_of_close_fetch_and_hash() {
    let mut run = signed_by_three();
    let fetch = Step::Fetch { peer: 1, other: 2, period: 0 };
    let hash = Step::Hash { peer: 1, period: 0 };
    assert_eq!(run.call(hash), 9);
    run.done(&[Step::Close { peer: 1 }]);
    assert_eq!(run.call(fetch), 9);
    run.done(&[
        Step::Close { peer: 2 },
        fetch,
        fetch,
        Step::Fetch { peer: 1, other: 1, period: 0 },
    ]);
    assert_eq!(run.call(Step::Fetch { peer: 3, other: 1, period: 0 }), 9);
    run.done(&[hash, hash]);
    assert_eq!(run.state.bag.len(), 1);
    run.done(&[Step::Close { peer: 1 }]);
    assert_eq!(run.call(Step::Close { peer: 1 }), 9);
}

#[test]
fn order_of_hear() {
    let mut run = hashed_by_three();
    run.done(&[Step::FalseHash { peer: 4, period: 1, board: 0 }]);
    run.done(&[Step::FalseBacking { peer: 4, period: 1, board: 0 }]);
    assert_eq!(run.call(Step::Hear { peer: 1, entry: 5 }), 10);
    // A backing of a period not closed: 10 before 9.
    assert_eq!(run.call(Step::Hear { peer: 1, entry: 4 }), 10);
    assert_eq!(run.call(Step::Hear { peer: 1, entry: 3 }), 9);
    run.done(&[Step::Hear { peer: 1, entry: 2 }, Step::Hear { peer: 1, entry: 2 }]);
    assert_eq!(run.state.peer(1).heard, [2].into());
}

#[test]
fn order_of_back_and_publish() {
    let mut run = hashed_by_three();
    // Another board's hash, another period's and a repeated signer do not count.
    run.done(&[Step::FalseHash { peer: 4, period: 0, board: 0 }]);
    for entry in [0, 1, 3] {
        run.done(&[Step::Hear { peer: 1, entry }]);
    }
    assert_eq!(run.call(Step::Back { peer: 1 }), 12);
    run.done(&[Step::Hear { peer: 1, entry: 2 }, Step::Back { peer: 1 }]);
    assert_eq!(run.call(Step::Back { peer: 1 }), 9);
    assert_eq!(run.call(Step::Publish { entry: 0 }), 10);
    assert_eq!(run.call(Step::Publish { entry: 4 }), 12);
    for entry in 0..=2 {
        run.done(&[Step::Hear { peer: 2, entry }]);
    }
    run.done(&[Step::Back { peer: 2 }, Step::FalseBacking { peer: 4, period: 1, board: 1 }]);
    assert_eq!(run.call(Step::Publish { entry: 4 }), 12);
    run.done(&[Step::FalseBacking { peer: 4, period: 0, board: 1 }]);
    run.done(&[Step::Publish { entry: 4 }, Step::Publish { entry: 5 }, Step::Publish { entry: 7 }]);
    assert_eq!(run.state.boards(), vec![(0, [0].into())]);
    let number = run.state.bag.len() - 1;
    assert_eq!(run.call(Step::Publish { entry: number }), 10);
}

#[test]
fn order_of_false_steps() {
    let mut run = four_peers();
    run.done(&[Step::FalseHash { peer: 4, period: 1, board: 0 }]);
    run.done(&[Step::FalseBacking { peer: 4, period: 1, board: 0 }]);
    for step in [
        Step::FalseSignature { peer: 4, period: 1, item: 0 },
        Step::FalseShare { peer: 4, period: 1, item: 0 },
        Step::FalseHash { peer: 4, period: 1, board: 0b101 },
        Step::FalseBacking { peer: 4, period: 1, board: 0b101 },
    ] {
        assert_eq!(run.call(step), 10, "{step:?}");
    }
    run.done(&[Step::Post { item: 0 }]);
    assert_eq!(run.call(Step::FalseHash { peer: 4, period: 1, board: 0b101 }), 10);
    assert_eq!(run.call(Step::FalseBacking { peer: 4, period: 1, board: 0b101 }), 10);
    run.done(&[Step::Post { item: 2 }, Step::FalseHash { peer: 4, period: 1, board: 0b101 }]);
}

/// 13 only for a new entry, and after 10 and 12.
#[test]
fn full() {
    let items: Vec<_> = (0..8).map(audit).collect();
    let mut run = Run::new(&table_bytes(4, 3, &[1, 2, 3], 2, &items));
    for item in 0..8 {
        run.done(&[Step::Post { item }]);
    }
    for peer in 1..=3 {
        run.done(&[Step::Close { peer }, Step::Hash { peer, period: 0 }]);
    }
    for peer in 1..=3 {
        for entry in 0..=2 {
            run.done(&[Step::Hear { peer, entry }]);
        }
    }
    run.done(&[Step::Back { peer: 1 }, Step::Back { peer: 2 }]);
    for board in 0..250 {
        run.done(&[Step::FalseHash { peer: 4, period: 0, board }]);
    }
    assert_eq!(run.call(Step::Publish { entry: 3 }), 12);
    run.done(&[Step::FalseBacking { peer: 4, period: 0, board: 0 }]);
    assert_eq!(run.state.bag.len(), 256);
    assert_eq!(run.call(Step::Publish { entry: 0 }), 10);
    assert_eq!(run.call(Step::Publish { entry: 3 }), 13);
    assert_eq!(run.call(Step::Back { peer: 3 }), 13);
    assert_eq!(run.state.peer(3).c, 0);
    assert_eq!(run.call(Step::FalseHash { peer: 4, period: 0, board: 250 }), 13);
    assert_eq!(run.call(Step::FalseBacking { peer: 4, period: 1, board: 0 }), 13);
    run.done(&[
        Step::FalseHash { peer: 4, period: 0, board: 249 },
        Step::Hash { peer: 1, period: 0 },
    ]);
    run.done(&[Step::Close { peer: 1 }]);
    assert_eq!(run.call(Step::Hash { peer: 1, period: 1 }), 13);
}

/// States that steps do not lead to: the rules still say what happens.
#[test]
fn states_that_steps_do_not_lead_to() {
    // A backing that is there already: c rises, nothing enters.
    let mut run = hashed_by_three();
    for entry in 0..=2 {
        run.done(&[Step::Hear { peer: 1, entry }]);
    }
    run.state.bag.push(Entry::Backing { signer: 1, period: 0, board: [0].into() });
    run.done(&[Step::Back { peer: 1 }]);
    assert_eq!((run.state.bag.len(), run.state.peer(1).c), (4, 1));
    // A sign with one of its two places filled fills the other.
    let mut run = signed_by_three();
    run.state.signatures.clear();
    run.done(&[Step::Sign { peer: 1, item: 0 }]);
    assert_eq!(run.state.signatures, [(1, 0, 0)].into());
    // A held item while a clashing one is held.
    run.state.posted.insert(1);
    run.state.peer_mut(1).held.insert((1, 1));
    assert_eq!(run.call(Step::Hand { peer: 1, item: 0 }), 11);
}
