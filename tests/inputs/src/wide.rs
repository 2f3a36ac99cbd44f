//! Rehearsals with the most to report, and the longest ones.

use crate::making::Making;
use crate::peers::Peers;
use crate::period::posts;
use crate::random::Random;
use crate::rehearsed::{Outcome, Rehearsed};
use crate::tables::{audit, fields_at, random_table};
use reference::form::Step;
use reference::state::BAG_SIZE;
use reference::table::read_front;

/// A table of 8 periods with 64 audits, of which no two clash.
fn audits(random: &mut Random, n: usize, liars: &[usize]) -> Vec<u8> {
    let peers = Peers::random(random, n);
    let items: Vec<Vec<u8>> = (0..64).map(|ballot| audit(random, peers.season, ballot)).collect();
    peers.table(peers.least(), liars, 8, &items)
}

/// 16 peers, 8 periods, 64 items: a signer or two for each period and item,
/// and then every peer fetches everything.
pub fn databases(random: &mut Random, _number: usize) -> Vec<u8> {
    let text = audits(random, 16, &[]);
    let mut making = Making::on(random, text);
    making.together(posts(&making.table));
    for _ in 0..8 {
        let one = |item: usize| (1 + item % 3, item);
        let two = making.random.below(64);
        let pairs: Vec<_> = (0..64).map(one).chain((two..64).map(|item| (4, item))).collect();
        making.together(pairs.iter().map(|(peer, item)| Step::Hand { peer: *peer, item: *item }));
        making.together(pairs.iter().map(|(peer, item)| Step::Sign { peer: *peer, item: *item }));
        making.together((1..=16).map(|peer| Step::Close { peer }));
    }
    let fetches =
        |peer: usize| (0..32).map(move |k| Step::Fetch { peer, other: 1 + k % 4, period: k / 4 });
    making.together((1..=16).flat_map(fetches));
    making.input()
}

/// The number of signer sets that are not empty.
pub fn filled_sets(outcome: &Outcome) -> usize {
    outcome.state.peers.iter().map(|peer| peer.database.len()).sum()
}

/// One dishonest peer: a receipt for each period and item, and as many boards
/// as the bag takes, the empty one and the whole one among them.
pub fn boards(random: &mut Random, _number: usize) -> Vec<u8> {
    let text = audits(random, 1, &[1]);
    let mut making = Making::on(random, text);
    making.together(posts(&making.table));
    let shown = || (0..512).map(|k| (k / 64, k % 64));
    making.together(shown().map(|(period, item)| Step::FalseShare { peer: 1, period, item }));
    making.together(shown().map(|(period, item)| Step::Receipt { period, item }));
    let mut boards = vec![0, u64::MAX];
    boards.resize_with(BAG_SIZE / 2, || making.random.bits());
    let lie = |(k, board)| Step::FalseBacking { peer: 1, period: k % 8, board };
    making.together(boards.into_iter().enumerate().map(lie));
    making.together((0..BAG_SIZE / 2).map(|entry| Step::Publish { entry }));
    making.input()
}

/// A run whose steps come again and again, up to that many bytes.
fn of_length(random: &mut Random, length: usize) -> Vec<u8> {
    let text = random_table(random, 16);
    let mut making = Making::on(random, text);
    making.wander(400);
    while 13 * making.steps.len() < length {
        let again = making.random.below(400);
        making.steps.push(making.steps[again].clone());
    }
    let mut input = making.input();
    input.truncate(length);
    input
}

pub fn long(random: &mut Random, _number: usize) -> Vec<u8> {
    of_length(random, 65_535)
}

pub fn longest(random: &mut Random, _number: usize) -> Vec<u8> {
    of_length(random, 65_536)
}

pub fn too_long(random: &mut Random, _number: usize) -> Vec<u8> {
    of_length(random, 65_537)
}

/// One byte too long, with a header that is out of range.
pub fn long_garbage(random: &mut Random, number: usize) -> Vec<u8> {
    let mut input = too_long(random, number);
    let fields = fields_at(&input);
    input[fields + random.below(2)] = 0;
    input
}

/// Whether the input begins with a table.
pub fn has_table(rehearsed: &Rehearsed) -> bool {
    read_front(rehearsed.input).is_ok()
}
