//! The edges that document 01 marks, in its order.

mod common;

use common::*;
use reference::form::Step;
use reference::table::{clash, Item, Kind};

#[test]
fn thresholds() {
    assert_eq!(alone(&table_bytes(3, 2, &[1], 1, &[])), 1);
    assert_eq!(alone(&table_bytes(3, 3, &[1], 1, &[])), 0);
    assert_eq!(alone(&table_bytes(16, 10, &[1], 1, &[])), 1);
    assert_eq!(alone(&table_bytes(16, 11, &[1], 1, &[])), 0);
}

#[test]
fn item_lengths() {
    let one = |item: Vec<u8>| alone(&table_bytes(3, 3, &[1], 1, &[item]));
    let vote_of = |length: usize| vote(7, &vec![0; length - 5]);
    assert_eq!(one(vote_of(5)), 3);
    assert_eq!(one(vote_of(6)), 0);
    assert_eq!(one(vote_of(37)), 0);
    assert_eq!(one(vote_of(38)), 3);
    assert_eq!(one([audit(7), vec![0]].concat()), 3);
}

fn item(ballot: u32, kind: Kind) -> Item {
    Item { ballot, kind }
}

#[test]
fn clashes() {
    let vote_00 = item(7, Kind::Vote(vec![0x00]));
    let vote_01 = item(7, Kind::Vote(vec![0x01]));
    let audit = item(7, Kind::Audit);
    let cancellation = item(7, Kind::Cancellation);
    assert!(clash(&vote_00, &vote_01));
    assert!(clash(&vote_00, &audit));
    assert!(clash(&audit, &vote_00));
    assert!(!clash(&vote_00, &cancellation));
    assert!(!clash(&cancellation, &vote_00));
}

#[test]
fn no_clashes() {
    let vote_00 = item(7, Kind::Vote(vec![0x00]));
    let audit = item(7, Kind::Audit);
    assert!(!clash(&vote_00, &vote_00));
    assert!(!clash(&audit, &audit));
    assert!(!clash(&audit, &item(7, Kind::Cancellation)));
    assert!(!clash(&vote_00, &item(8, Kind::Vote(vec![0x01]))));
    assert!(!clash(&vote_00, &item(8, Kind::Audit)));
}

#[test]
fn take_for_the_period_after_the_open_one() {
    let mut run = Run::new(&table_bytes(3, 3, &[1, 2], 2, &[audit(7)]));
    run.done(&[
        Step::Post { item: 0 },
        Step::FalseSignature { peer: 3, period: 0, item: 0 },
        Step::FalseSignature { peer: 3, period: 1, item: 0 },
    ]);
    let take = |period| Step::Take { peer: 1, other: 3, period, item: 0 };
    assert_eq!(run.call(take(1)), 9);
    assert_eq!(run.call(take(0)), 0);
    run.done(&[Step::Close { peer: 1 }]);
    assert_eq!(run.call(take(1)), 0);
    assert_eq!(run.call(take(0)), 0);
    run.done(&[Step::Close { peer: 1 }]);
    assert_eq!(run.call(take(1)), 0);
}

#[test]
fn share_with_one_signer_too_few() {
    let mut run = Run::new(&table_bytes(3, 3, &[1, 2, 3], 1, &[audit(7)]));
    run.done(&[Step::Post { item: 0 }]);
    for peer in 1..=3 {
        run.done(&[Step::Hand { peer, item: 0 }, Step::Sign { peer, item: 0 }]);
    }
    run.done(&[Step::Take { peer: 1, other: 2, period: 0, item: 0 }]);
    assert_eq!(run.call(Step::Share { peer: 1, item: 0 }), 12);
    run.done(&[Step::Take { peer: 1, other: 3, period: 0, item: 0 }]);
    assert_eq!(run.call(Step::Share { peer: 1, item: 0 }), 0);
}

#[test]
fn second_hand_of_an_item_in_a_period() {
    let mut run = Run::new(&table_bytes(3, 3, &[1], 2, &[vote(7, &[0])]));
    run.done(&[Step::Post { item: 0 }, Step::Hand { peer: 1, item: 0 }]);
    let held = run.state.clone();
    assert_eq!(run.call(Step::Hand { peer: 1, item: 0 }), 0);
    assert_eq!(run.state, held);
}
