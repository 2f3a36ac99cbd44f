//! Slips posted on two days, of document 02's P6: rehearsals with them, and where
//! they show.

use crate::making::Making;
use crate::random::Random;
use crate::rehearsed::{Outcome, Rehearsed};
use crate::tables::Shape;
use reference::form::{read_step, Step};
use reference::state::State;
use std::collections::{BTreeMap, BTreeSet};

/// Periods that go well; in two of them the same items are posted, handed, signed
/// and taken, and shares and receipts are asked for.
pub fn two_days(random: &mut Random, number: usize) -> Vec<u8> {
    let n = [1, 2, 3, 4, 5, 6, 16][number % 7];
    let shape = Shape { n, periods: random.between(2, 4), m: random.between(1, 8) };
    let (last, liars) = (random.between(1, shape.periods.min(3) - 1), random.below(3));
    let text = shape.honest_table(random, liars);
    let mut making = Making::on(random, text);
    let items = making.fair_items((40 / n / n).clamp(1, 4));
    let first = making.random.below(last);
    for period in 0..=last {
        let posted = if [first, last].contains(&period) { &items[..] } else { &[] };
        making.good_period(period, posted);
    }
    making.wander(20);
    making.input()
}

/// The number of periods in which an item has a receipt.
fn receipts_of(state: &State, item: usize) -> usize {
    state.receipts.iter().filter(|receipt| receipt.1 == item).count()
}

/// The items that have receipts in several periods.
pub fn receipted_twice(state: &State) -> BTreeSet<usize> {
    let items = state.receipts.iter().map(|(_, item)| *item);
    items.filter(|item| receipts_of(state, *item) > 1).collect()
}

/// The periods in which honest peers gave shares, by peer and item: those that were
/// open, by the closes accepted, when a share was accepted.
pub fn periods_of_shares<'a>(
    calls: impl Iterator<Item = (&'a [u8], u8)>,
) -> BTreeMap<(usize, usize), BTreeSet<usize>> {
    let mut open: BTreeMap<usize, usize> = BTreeMap::new();
    let mut periods: BTreeMap<(usize, usize), BTreeSet<usize>> = BTreeMap::new();
    for (bytes, _) in calls.filter(|(_, answer)| *answer == 0) {
        match read_step(bytes) {
            Ok(Step::Close { peer }) => *open.entry(peer).or_default() += 1,
            Ok(Step::Share { peer, item }) => {
                let period = open.get(&peer).copied().unwrap_or(0);
                periods.entry((peer, item)).or_default().insert(period);
            }
            _ => {}
        }
    }
    periods
}

/// Whether an item is on the boards of two periods, with a receipt in one of them,
/// and some peer that gave a share for it was refused another.
pub fn shows_two_days(rehearsed: &Rehearsed, outcome: &Outcome) -> bool {
    let shares = periods_of_shares(rehearsed.calls());
    let is_refused = |peer: usize, item: usize| {
        let is = |(step, answer): (&[u8], u8)| {
            answer == 17 && read_step(step) == Ok(Step::Share { peer, item })
        };
        rehearsed.calls().any(is)
    };
    let boards = outcome.state.boards();
    let times = |item: usize| boards.iter().filter(|(_, board)| board.contains(&item)).count();
    shares.keys().any(|(peer, item)| {
        times(*item) > 1 && receipts_of(&outcome.state, *item) == 1 && is_refused(*peer, *item)
    })
}
