//! Rehearsals to be cut down, of document 02's P7: the last step is refused, with
//! every number that steps are refused with; or they are clean, or refused as a whole.

use crate::answers::{row_of, ROWS};
use crate::chain::Chain;
use crate::counted::{posts_again, publishes_again, two_boards};
use crate::given::two_days;
use crate::making::Making;
use crate::odd::damaged;
use crate::places::two_places;
use crate::random::Random;
use crate::rehearsed::Rehearsed;
use crate::runs::{full_bag, lost, repeated, run, shuffled};
use crate::sorts::{in_turn, sort, Sort};
use crate::tables::{random_table, Shape};
use crate::wide::{long_garbage, too_long};
use reference::form::{Step, STEP_LENGTH};
use std::ops::Range;

/// The most steps that they have, but for those that fill the bag: in each pass the
/// reference runs a list as often as it has steps.
pub const MOST_STEPS: usize = 250;

/// Each with the last answer, or the number that refuses it as a whole.
pub static SORTS: [Sort; 27] = [
    sort("a last answer of 5", |random| ending(random, 5), &[5]),
    sort("a last answer of 6", |random| ending(random, 6), &[6]),
    sort("a last answer of 7", |random| ending(random, 7), &[7]),
    sort("a last answer of 8", |random| ending(random, 8), &[8]),
    sort("a last answer of 9", |random| ending(random, 9), &[9]),
    sort("a last answer of 10", |random| ending(random, 10), &[10]),
    sort("a last answer of 11", |random| ending(random, 11), &[11]),
    sort("a last answer of 12", |random| ending(random, 12), &[12]),
    sort("a last answer of 17", |random| ending(random, 17), &[17]),
    sort("a last answer of 0", |random| ending(random, 0), &[18]),
    sort("no steps", |random| random_table(random, 16), &[18]),
    sort("a short tail", short_tail, &[5]),
    sort("an outage before a 9", |random| outages(random, 9), &[9]),
    sort("an outage before a 10", |random| outages(random, 10), &[10]),
    sort("an outage before a 12", |random| outages(random, 12), &[12]),
    sort("a close too many", |random| ending_with(random, 7, 9), &[9]),
    sort("a hear before the close", |random| ending_with(random, 10, 9), &[9]),
    sort("a hear of no hash", |random| ending_with(random, 10, 10), &[10]),
    sort("a publish of no backing", |random| ending_with(random, 12, 10), &[10]),
    sort("a publish of too few backings", |random| ending_with(random, 12, 12), &[12]),
    sort("a clear before the last back", |random| ending_with(random, 19, 9), &[9]),
    sort("a chain of few links", |random| chain(random, 3, 4), &[12]),
    sort("a damaged header", |random| damaged(random, 0), &[1]),
    sort("damaged pairs", |random| damaged(random, 1), &[2]),
    sort("a damaged item", |random| damaged(random, 2), &[3]),
    sort("twins", |random| damaged(random, 3), &[4]),
    sort("65,537 bytes", of_65537, &[15]),
];

/// Those that take long: a full bag, by the op that finds no room; and many passes.
pub static SLOW: [Sort; 6] = [
    sort("a full bag and a hash", |random| ending_full(random, 9), &[13]),
    sort("a full bag and a back", |random| ending_full(random, 11), &[13]),
    sort("a full bag and a publish", |random| ending_full(random, 12), &[13]),
    sort("a full bag and a false hash", |random| ending_full(random, 15), &[13]),
    sort("a full bag and a false backing", |random| ending_full(random, 16), &[13]),
    sort("a chain of many links", |random| chain(random, 8, 12), &[12]),
];

/// The rehearsals of a run: so many of each sort, and so many of each that is slow.
pub fn rehearsals(
    seed: u64,
    each: usize,
    slow: usize,
) -> impl Iterator<Item = (&'static Sort, Vec<u8>)> {
    let others = (0..each * SORTS.len()).map(move |number| in_turn(&SORTS, seed, number));
    others.chain((0..slow * SLOW.len()).map(move |number| in_turn(&SLOW, !seed, number)))
}

/// What is cut.
const SOURCES: [fn(&mut Random, usize) -> Vec<u8>; 10] = [
    run,
    long_run,
    long_run,
    shuffled,
    repeated,
    lost,
    posts_again,
    publishes_again,
    two_boards,
    two_places,
];

/// Random steps, as many as there may be.
fn long_run(random: &mut Random, number: usize) -> Vec<u8> {
    let text = random_table(random, [1, 3, 5][number % 3]);
    let mut making = Making::on(random, text);
    making.wander(MOST_STEPS);
    making.input()
}

/// A rehearsal that ends with such an answer, to any op that can get it.
fn ending(random: &mut Random, answer: u8) -> Vec<u8> {
    let rows = ROWS.iter().filter(|row| row.answers.contains(&answer));
    let op = random.pick(rows).map_or(0, |row| row.op);
    ending_with(random, op, answer)
}

/// The same to this op.
fn ending_with(random: &mut Random, op: u8, answer: u8) -> Vec<u8> {
    loop {
        let make = match answer {
            17 => two_days,
            _ => SOURCES[random.below(SOURCES.len())],
        };
        let number = random.below(1_000);
        let input = make(random, number);
        if let Some(cut) = cut(random, input, 0..MOST_STEPS, is(op, answer)) {
            return cut;
        }
    }
}

/// The same where the bag is full: its entries alone are more than `MOST_STEPS`.
fn ending_full(random: &mut Random, op: u8) -> Vec<u8> {
    loop {
        let input = full_bag(random, 0);
        if let Some(cut) = cut(random, input, 0..usize::MAX, is(op, 13)) {
            return cut;
        }
    }
}

/// Whether a step is of the op and was answered so.
fn is(op: u8, answer: u8) -> impl Fn(&[u8], u8) -> bool {
    move |step, given| row_of(step[0]).op == op && given == answer
}

/// A peer goes down and comes up again, once or more; then it is refused something,
/// and not for that.
fn outages(random: &mut Random, answer: u8) -> Vec<u8> {
    loop {
        let shape = Shape { m: random.between(1, 6), ..Shape::random(random, 5) };
        let text = shape.honest_table(random, 1);
        let mut making = Making::on(random, text);
        let peer = making.random.pick(making.table.honest.iter().copied()).unwrap_or(1);
        for _ in 0..making.random.between(1, 4) {
            let (before, meanwhile) = (making.random.below(40), making.random.below(10));
            making.wander(before);
            making.together([Step::Down { peer }].into_iter());
            making.wander(meanwhile);
            making.together([Step::Up { peer }].into_iter());
        }
        let behind = making.steps.len();
        making.wander(50);
        let input = making.input();
        let is = |step: &[u8], given| step[1] == peer as u8 && given == answer;
        if let Some(cut) = cut(random, input, behind..MOST_STEPS, is) {
            return cut;
        }
    }
}

/// The rehearsal up to a step in these places that is so with its answer, if there is
/// one: often the last.
fn cut(
    random: &mut Random,
    mut input: Vec<u8>,
    places: Range<usize>,
    is: impl Fn(&[u8], u8) -> bool,
) -> Option<Vec<u8>> {
    let rehearsed = Rehearsed::new(&input);
    let calls = rehearsed.calls().enumerate().filter(|(at, _)| places.contains(at));
    let fits = calls.filter(|(_, (step, answer))| is(step, *answer)).map(|(at, _)| at);
    let last = if random.once_in(2) { fits.last() } else { random.pick(fits) };
    let end = rehearsed.outcome.ok()?.end + STEP_LENGTH * (last? + 1);
    input.truncate(end);
    Some(input)
}

/// A rehearsal, and at its end 1 to 12 bytes of a step.
fn short_tail(random: &mut Random) -> Vec<u8> {
    let answer = [0, 10][random.below(2)];
    let mut input = ending(random, answer);
    let from = input.len() - STEP_LENGTH;
    input.extend_from_within(from..from + random.between(1, STEP_LENGTH - 1));
    input
}

/// A chain with a number of links from low to high.
fn chain(random: &mut Random, low: usize, high: usize) -> Vec<u8> {
    Chain::of(random.between(low, high)).input
}

/// One byte too long, with a table or without.
fn of_65537(random: &mut Random) -> Vec<u8> {
    let make = [too_long, long_garbage][random.below(2)];
    make(random, 0)
}

/// The rehearsal, if it has no more than so many steps; else its beginning, up to the
/// last step among these that is refused.
pub fn shortened(mut input: Vec<u8>, most: usize) -> Vec<u8> {
    let Ok(outcome) = Rehearsed::new(&input).outcome else {
        return input;
    };
    if outcome.answers.len() > most {
        let refused = outcome.answers[..most].iter().rposition(|answer| *answer != 0);
        let count = refused.map_or(most, |at| at + 1);
        input.truncate(outcome.end + STEP_LENGTH * count);
    }
    input
}
