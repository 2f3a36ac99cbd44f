//! The ideal board on its own, fed by hand with steps and answers.

mod common;

use common::*;
use reference::form::{write_step, Step};
use reference::ideal::IdealBoard;
use reference::state::Board;
use reference::table::{read_table, Table};

/// Two clashing votes and an audit of another ballot.
fn table(n: u8, t: u8, honest: &[usize]) -> Table {
    let items = [vote(7, &[0]), vote(7, &[1]), audit(8)];
    read_table(&table_bytes(n, t, honest, 2, &items)).unwrap()
}

struct Fed {
    table: Table,
    ideal: IdealBoard,
}

impl Fed {
    fn new(table: Table) -> Fed {
        let ideal = IdealBoard::new(&table);
        Fed { table, ideal }
    }

    /// Steps answered 0.
    fn done(&mut self, steps: &[Step]) {
        for step in steps {
            self.ideal.feed(&self.table, &write_step(*step), 0, None);
        }
    }

    fn sign(&mut self, peer: usize, item: usize) {
        self.done(&[Step::Sign { peer, item }]);
    }

    fn publish(&mut self, period: usize, board: Board) {
        let step = write_step(Step::Publish { entry: 0 });
        self.ideal.feed(&self.table, &step, 0, Some((period, board)));
    }
}

/// With n = 4, t = 3, h = 4 two honest signers (2t − n) are not enough: two
/// clashing items could each have them. It takes t + h − n = 3.
#[test]
fn two_of_four_honest_signers_receive_nothing() {
    let mut fed = Fed::new(table(4, 3, &[1, 2, 3, 4]));
    fed.done(&[Step::Post { item: 0 }, Step::Post { item: 1 }]);
    fed.sign(1, 0);
    fed.sign(2, 0);
    fed.sign(3, 1);
    fed.sign(4, 1);
    assert!(fed.ideal.received.is_empty() && fed.ideal.all_allowed);
    fed.sign(3, 0);
    assert_eq!(fed.ideal.received, [(0, 0)].into());
    assert!(fed.ideal.all_allowed);
    fed.sign(2, 1);
    assert_eq!(fed.ideal.received, [(0, 0)].into());
    assert!(!fed.ideal.all_allowed);
}

/// Signatures count for the period that the signer has open.
#[test]
fn signatures_of_different_periods_do_not_add_up() {
    let mut fed = Fed::new(table(3, 3, &[1, 2, 3]));
    fed.done(&[Step::Post { item: 0 }]);
    fed.sign(1, 0);
    fed.sign(2, 0);
    fed.done(&[Step::Close { peer: 3 }]);
    fed.sign(3, 0);
    assert!(fed.ideal.received.is_empty());
    fed.done(&[Step::Close { peer: 1 }, Step::Close { peer: 2 }]);
    fed.sign(1, 0);
    fed.sign(2, 0);
    assert_eq!(fed.ideal.received, [(1, 0)].into());
}

#[test]
fn a_refused_step_changes_nothing() {
    let mut fed = Fed::new(table(3, 3, &[1, 2, 3]));
    let before = fed.ideal.clone();
    for step in [Step::Post { item: 0 }, Step::Close { peer: 1 }, Step::Sign { peer: 1, item: 0 }] {
        fed.ideal.feed(&fed.table, &write_step(step), 12, None);
    }
    fed.ideal.feed(&fed.table, &[], 5, None);
    assert_eq!(fed.ideal, before);
}

#[test]
fn a_receipt_must_be_received_and_on_the_board() {
    let mut fed = Fed::new(table(1, 1, &[1]));
    fed.done(&[Step::Post { item: 0 }, Step::Post { item: 2 }]);
    fed.done(&[Step::Receipt { period: 0, item: 0 }]);
    assert!(!fed.ideal.all_allowed && fed.ideal.receipts.is_empty());
    // Left out, it may be tried again by a later step.
    fed.sign(1, 0);
    fed.sign(1, 2);
    fed.done(&[Step::Receipt { period: 0, item: 0 }]);
    assert_eq!(fed.ideal.receipts, [(0, 0)].into());
    fed.publish(0, [0].into());
    fed.done(&[Step::Receipt { period: 0, item: 2 }]);
    assert_eq!(fed.ideal.receipts, [(0, 0)].into());
}

#[test]
fn a_board_must_be_the_only_one_received_and_complete() {
    let mut fed = Fed::new(table(1, 1, &[1]));
    fed.done(&[Step::Post { item: 0 }, Step::Post { item: 2 }]);
    fed.sign(1, 0);
    fed.done(&[Step::Receipt { period: 0, item: 0 }]);
    fed.publish(0, [].into());
    fed.publish(0, [0, 2].into());
    assert!(!fed.ideal.all_allowed && fed.ideal.boards.is_empty());
    fed.ideal.all_allowed = true;
    fed.publish(0, [0].into());
    fed.publish(0, [0].into());
    fed.publish(1, [].into());
    assert!(fed.ideal.all_allowed);
    assert_eq!(fed.ideal.boards, vec![(0, [0].into()), (1, [].into())]);
    fed.sign(1, 2);
    fed.publish(0, [0, 2].into());
    assert!(!fed.ideal.all_allowed);
    assert_eq!(fed.ideal.boards.len(), 2);
}
