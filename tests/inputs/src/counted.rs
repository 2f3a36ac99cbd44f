//! Rehearsals whose totals are easily counted wrong: what is posted, receipted
//! or published comes again, or a period has two boards.

use crate::making::Making;
use crate::peers::Peers;
use crate::period::posts;
use crate::random::Random;
use crate::rehearsed::{Outcome, Rehearsed};
use crate::runs::good;
use crate::steps::all_items;
use crate::tables::Shape;
use reference::form::Step;
use reference::state::{Board, Entry};
use std::collections::BTreeSet;

pub fn posts_again(random: &mut Random, number: usize) -> Vec<u8> {
    with_repeats(random, number, 1)
}

pub fn receipts_again(random: &mut Random, number: usize) -> Vec<u8> {
    with_repeats(random, number, 6)
}

pub fn publishes_again(random: &mut Random, number: usize) -> Vec<u8> {
    with_repeats(random, number, 12)
}

/// Good periods and some steps after them; each step of the op comes again,
/// anywhere behind. What was done once is answered 0 from then on.
fn with_repeats(random: &mut Random, number: usize, op: u8) -> Vec<u8> {
    let mut making = good(random, number);
    let done: Vec<Vec<u8>> = making.steps.iter().filter(|step| step[0] == op).cloned().collect();
    making.wander(20);
    if op == 12 {
        // A clear would give its entry another number.
        making.steps.retain(|step| step[0] != 19);
    }
    for step in done {
        for _ in 0..making.random.between(1, 3) {
            let first = making.steps.iter().position(|other| *other == step);
            let behind = first.expect("the step itself") + 1;
            let at = making.random.between(behind, making.steps.len());
            making.steps.insert(at, step.clone());
        }
    }
    making.input()
}

/// Whether some step of the op comes again once it was accepted, and is answered
/// 0 each time.
pub fn comes_again(rehearsed: &Rehearsed, op: u8) -> bool {
    let (mut accepted, mut again) = (BTreeSet::new(), BTreeSet::new());
    for (step, answer) in rehearsed.calls().filter(|(step, _)| step[0] == op) {
        if accepted.contains(step) {
            again.insert(answer);
        } else if answer == 0 {
            accepted.insert(step);
        }
    }
    again == [0].into()
}

/// The dishonest peers are a quorum: they back two boards of one period that have an
/// item in common, and one too few of them back a third.
pub fn two_boards(random: &mut Random, number: usize) -> Vec<u8> {
    let n = [1, 2, 3, 4, 5, 7, 16][number % 7];
    let peers = Peers::random(random, n);
    let t = peers.least();
    let least = random.between(t, peers.sum());
    let liars = peers.reaching(random, least);
    let mut too_few = peers.first_reaching(&liars, t);
    too_few.pop();
    let shape = Shape { n, periods: random.between(1, 3), m: random.between(3, 8) };
    let text = shape.table_with(random, &peers, t, &liars);
    let mut making = Making::on(random, text);
    making.together(posts(&making.table));
    making.wander(20);
    let period = making.random.below(making.table.periods);
    let [one, other, third] = making.boards_in_common();
    making.lie(period, one, &liars);
    making.lie(period, other, &liars);
    making.lie(period, third, &too_few);
    let backings = making.entries(|entry| matches!(entry, Entry::Backing { .. }));
    making.together(backings.into_iter().map(|entry| Step::Publish { entry }));
    making.wander(20);
    making.input()
}

impl Making<'_> {
    /// Three different boards with an item in common, on a table that has three
    /// items or more.
    fn boards_in_common(&mut self) -> [u64; 3] {
        let item = self.random.below(self.table.m());
        let others = all_items(self.table.m()) & !(1 << item);
        let (one, least) = (self.random.bits() & others, others & others.wrapping_neg());
        [one, one ^ others, one ^ least].map(|board| board | 1 << item)
    }

    /// These dishonest peers back a board.
    fn lie(&mut self, period: usize, board: u64, liars: &[usize]) {
        let lie = |peer: &usize| Step::FalseBacking { peer: *peer, period, board };
        self.together(liars.iter().map(lie));
    }
}

/// Whether two boards of one period have an item in common, and all the items of
/// both are counted.
pub fn has_two_boards(outcome: &Outcome) -> bool {
    let boards = outcome.state.boards();
    let counted = |one: &Board, other: &Board| {
        !one.is_disjoint(other) && outcome.totals[2] >= one.len() + other.len()
    };
    let with = |p: usize, one: &Board| {
        boards.iter().any(|(q, other)| p == *q && one != other && counted(one, other))
    };
    boards.iter().any(|(p, one)| with(*p, one))
}
