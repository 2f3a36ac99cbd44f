//! Rehearsals in the shape of the protocol.

use crate::making::Making;
use crate::period::filled;
use crate::random::Random;
use crate::rehearsed::Outcome;
use crate::tables::{random_table, Shape};

/// Random steps on a table.
fn wandered(random: &mut Random, text: Vec<u8>) -> Vec<u8> {
    let count = random.between(20, 120);
    let mut making = Making::on(random, text);
    making.wander(count);
    making.input()
}

pub fn run(random: &mut Random, number: usize) -> Vec<u8> {
    let text = random_table(random, [1, 3, 5, 16][number % 4]);
    wandered(random, text)
}

/// A run on a table of some shape.
fn shaped(random: &mut Random, change: fn(Shape) -> Shape) -> Vec<u8> {
    let text = change(Shape::random(random, 6)).table(random);
    wandered(random, text)
}

pub fn no_items(random: &mut Random, _number: usize) -> Vec<u8> {
    shaped(random, |shape| Shape { m: 0, ..shape })
}

pub fn all_items(random: &mut Random, _number: usize) -> Vec<u8> {
    shaped(random, |shape| Shape { m: 64, ..shape })
}

pub fn one_peer(random: &mut Random, _number: usize) -> Vec<u8> {
    shaped(random, |shape| Shape { n: 1, ..shape })
}

pub fn all_peers(random: &mut Random, _number: usize) -> Vec<u8> {
    shaped(random, |shape| Shape { n: 16, ..shape })
}

pub fn one_period(random: &mut Random, _number: usize) -> Vec<u8> {
    shaped(random, |shape| Shape { periods: 1, ..shape })
}

pub fn all_periods(random: &mut Random, _number: usize) -> Vec<u8> {
    shaped(random, |shape| Shape { periods: 8, ..shape })
}

/// A run, and at its end 1 to 12 bytes of a step.
pub fn short_tail(random: &mut Random, number: usize) -> Vec<u8> {
    let mut input = run(random, number);
    let from = input.len() - 13;
    input.extend_from_within(from..from + 1 + number % 12);
    input
}

/// One or two periods with nothing lost, each with items of its own.
pub fn good(random: &mut Random, number: usize) -> Making<'_> {
    let n = [1, 2, 3, 4, 5, 6, 16][number % 7];
    let shape = Shape { n, periods: random.between(1, 3), m: random.between(1, 8) };
    let (periods, liars) = (shape.periods.min(random.between(1, 2)), random.below(3));
    let text = shape.honest_table(random, liars);
    let mut making = Making::on(random, text);
    let most = (40 / n / n).clamp(1, 4);
    let items = making.fair_items(periods * most);
    let mut parts = items.chunks(most);
    for period in 0..periods {
        making.good_period(period, parts.next().unwrap_or(&[]));
    }
    making
}

pub fn good_periods(random: &mut Random, number: usize) -> Vec<u8> {
    good(random, number).input()
}

/// Everything taken, with a receipt and a board of some items.
pub fn went_well(outcome: &Outcome) -> bool {
    outcome.answers.iter().all(|answer| *answer == 0)
        && !outcome.state.receipts.is_empty()
        && outcome.state.boards().iter().any(|(_, board)| !board.is_empty())
}

/// A run or good periods, with the list of steps changed.
fn changed(
    random: &mut Random,
    number: usize,
    change: fn(&mut Random, &mut Vec<Vec<u8>>),
) -> Vec<u8> {
    let mut making = if number.is_multiple_of(2) {
        good(random, number / 2)
    } else {
        let text = random_table(random, 5);
        let mut making = Making::on(random, text);
        making.wander(80);
        making
    };
    change(making.random, &mut making.steps);
    making.input()
}

/// All steps shuffled, or a window of them.
pub fn shuffled(random: &mut Random, number: usize) -> Vec<u8> {
    changed(random, number, |random, steps| {
        let (from, to) = (random.below(steps.len()), random.between(1, steps.len()));
        let part = if random.once_in(2) { 0..steps.len() } else { from.min(to)..from.max(to) };
        random.shuffle(&mut steps[part]);
    })
}

/// Some steps come again, later.
pub fn repeated(random: &mut Random, number: usize) -> Vec<u8> {
    changed(random, number, |random, steps| {
        for _ in 0..steps.len() / 4 {
            let from = random.below(steps.len());
            let to = random.between(from, steps.len());
            steps.insert(to, steps[from].clone());
        }
    })
}

pub fn lost(random: &mut Random, number: usize) -> Vec<u8> {
    changed(random, number, |random, steps| {
        let times = [4, 12, 40][random.below(3)];
        steps.retain(|_| !random.once_in(times));
    })
}

/// A bag that fills, and some steps after that.
pub fn full_bag(random: &mut Random, _number: usize) -> Vec<u8> {
    let mut making = filled(random);
    making.wander(30);
    making.input()
}
