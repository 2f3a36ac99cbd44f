//! Rehearsals that shrink slowly: each pass drops one step, a link of the chain, and
//! all other steps are needed to the end.
//!
//! Peer 1 hashes its board again and again. Each hash must be a new one, or there are
//! fewer entries and the last step names none; so its board must grow before each.
//! Before hash i it fetches peer 2's database: that brings item i, and item i + 1 but
//! for one signature. The link is the take of this one. So the board grows by item i,
//! or, if the link before it has brought that one early, by item i + 1. A link is
//! needed exactly as long as the one before it is there: one pass drops it, and only
//! the next pass comes to the link after it.
//!
//! What brings the items is needed too: peer 2 must end with all of them on its board,
//! since its backing is the entry that the last step names. One backing is too few to
//! publish: 12.

use reference::form::{write_step, Step};
use reference::table::write_table;

/// A link for each item but the first.
pub const MOST_LINKS: usize = 63;

pub struct Chain {
    pub input: Vec<u8>,
    /// The links' numbers among the steps, where the first is 1.
    pub links: Vec<usize>,
}

impl Chain {
    /// So many links. There are 10 steps for each, and 19 more; as many passes as
    /// links drop one step each, and one more drops none.
    pub fn of(links: usize) -> Chain {
        assert!((1..=MOST_LINKS).contains(&links));
        let items: Vec<Vec<u8>> = (0..=links).map(|k| vec![0, 0, 0, k as u8, 1, 1]).collect();
        let mut steps = signed(items.len());
        let mut numbers = Vec::new();
        for item in 0..links {
            steps.extend([take(2, 3, item), take(2, 4, item + 1)]);
            steps.extend([Step::Fetch { peer: 1, other: 2, period: 0 }, take(1, 3, item + 1)]);
            numbers.push(steps.len());
            steps.push(Step::Hash { peer: 1, period: 0 });
        }
        steps.push(take(2, 3, links));
        steps.extend(backed(links + 1));
        let table = write_table(4, 3, 0b11, 1, &items);
        let steps: Vec<u8> = steps.into_iter().flat_map(write_step).collect();
        Chain { input: [table, steps].concat(), links: numbers }
    }

    /// The numbers of the steps that are left.
    pub fn left(&self) -> Vec<usize> {
        let steps = 10 * self.links.len() + 19;
        (1..=steps).filter(|number| !self.links.contains(number)).collect()
    }
}

/// The items are signed by peer 1 and by the liars 3 and 4. The period is closed, and
/// peer 2 knows the first signature of each item, and of the first item two of three.
fn signed(items: usize) -> Vec<Step> {
    let mut steps = Vec::new();
    for item in 0..items {
        steps.push(Step::Post { item });
        steps.extend([Step::Hand { peer: 1, item }, Step::Sign { peer: 1, item }]);
        steps.extend([3, 4].map(|peer| Step::FalseSignature { peer, period: 0, item }));
    }
    steps.extend([1, 2].map(|peer| Step::Close { peer }));
    steps.extend([Step::Fetch { peer: 2, other: 1, period: 0 }, take(2, 4, 0)]);
    steps.push(Step::Hash { peer: 1, period: 0 });
    steps
}

fn take(peer: usize, other: usize, item: usize) -> Step {
    Step::Take { peer, other, period: 0, item }
}

/// Peer 2 backs the board of all items behind so many hashes of peer 1; then someone
/// tries to publish it.
fn backed(hashes: usize) -> Vec<Step> {
    let board = u64::MAX >> (64 - hashes);
    let mut steps = vec![Step::Hash { peer: 2, period: 0 }];
    steps.extend([3, 4].map(|peer| Step::FalseHash { peer, period: 0, board }));
    steps.extend((hashes..hashes + 3).map(|entry| Step::Hear { peer: 2, entry }));
    steps.extend([Step::Back { peer: 2 }, Step::Publish { entry: hashes + 3 }]);
    steps
}
