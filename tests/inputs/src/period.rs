//! Periods that go well, and lies that fill the bag.

use crate::making::Making;
use crate::random::Random;
use crate::steps::{all_items, liars};
use crate::tables::Shape;
use reference::form::{bits, Step};
use reference::state::{Entry, BAG_SIZE};
use reference::table::Table;

impl Making<'_> {
    /// At most so many items, of which no two clash.
    pub fn fair_items(&self, most: usize) -> Vec<usize> {
        let mut fair: Vec<usize> = Vec::new();
        for item in 0..self.table.m() {
            if fair.len() < most && !fair.iter().any(|other| self.table.clash(item, *other)) {
                fair.push(item);
            }
        }
        fair
    }

    /// The period from its posts to its board, with nothing lost.
    pub fn good_period(&mut self, period: usize, items: &[usize]) {
        self.gather(period, items);
        self.agree(period);
        self.back(&self.honest());
        self.publish();
    }

    /// All honest peers sign the items, take each other's signatures and give
    /// their shares; the receipts follow.
    pub fn gather(&mut self, period: usize, items: &[usize]) {
        let honest = self.honest();
        let pairs = || honest.iter().flat_map(|peer| items.iter().map(|item| (*peer, *item)));
        let take = |(peer, item), other| Step::Take { peer, other, period, item };
        let takes = pairs().flat_map(|pair| honest.iter().map(move |other| take(pair, *other)));
        self.together(items.iter().map(|item| Step::Post { item: *item }));
        self.together(pairs().map(|(peer, item)| Step::Hand { peer, item }));
        self.together(pairs().map(|(peer, item)| Step::Sign { peer, item }));
        self.together(takes);
        self.together(pairs().map(|(peer, item)| Step::Share { peer, item }));
        self.together(items.iter().map(|item| Step::Receipt { period, item: *item }));
    }

    /// All honest peers close the period, send their hashes and hear them all.
    pub fn agree(&mut self, period: usize) {
        let honest = self.honest();
        self.together(honest.iter().map(|peer| Step::Close { peer: *peer }));
        self.together(honest.iter().map(|peer| Step::Hash { peer: *peer, period }));
        let hashes = self.entries(|entry| matches!(entry, Entry::Hash { .. }));
        let hear = |peer: usize| hashes.iter().map(move |e| Step::Hear { peer, entry: *e });
        self.together(honest.iter().flat_map(|peer| hear(*peer)));
    }

    pub fn back(&mut self, peers: &[usize]) {
        self.together(peers.iter().map(|peer| Step::Back { peer: *peer }));
    }

    pub fn publish(&mut self) {
        let backings = self.entries(|entry| matches!(entry, Entry::Backing { .. }));
        self.together(backings.into_iter().map(|entry| Step::Publish { entry }));
    }

    /// The bag fills when all but one, who weighs least, have backed the board, and
    /// before it is published: then every step that would enter something is refused.
    fn fill(&mut self) {
        let items = self.fair_items(2);
        self.gather(0, &items);
        self.agree(0);
        let (mut honest, liars) = (self.honest(), self.liars());
        honest.sort_by_key(|peer| self.table.weights[peer - 1]);
        self.back(&honest[1..]);
        let board = bits(&self.state.peer(honest[0]).board(&self.table, 0));
        let lie = |period, board| {
            liars.iter().map(move |peer| Step::FalseBacking { peer: *peer, period, board })
        };
        self.together(lie(0, board));
        self.together(posts(&self.table));
        let hashes = false_hashes(self.random, &self.table);
        self.together(hashes);
        self.back(&honest[..1]);
        self.publish();
        self.together(honest.iter().map(|peer| Step::Close { peer: *peer }));
        self.together(honest.iter().map(|peer| Step::Hash { peer: *peer, period: 1 }));
        self.together(lie(1, 0));
    }
}

/// A table with a liar who can fill the bag.
pub fn filling_table(random: &mut Random) -> Vec<u8> {
    let (n, periods, m) = (random.between(4, 7), random.between(2, 8), random.between(8, 12));
    Shape { n, periods, m }.honest_table(random, 1)
}

/// A rehearsal in which the bag fills.
pub fn filled(random: &mut Random) -> Making<'_> {
    let text = filling_table(random);
    let mut making = Making::on(random, text);
    making.fill();
    making
}

/// Every item is posted.
pub fn posts(table: &Table) -> impl Iterator<Item = Step> {
    (0..table.m()).map(|item| Step::Post { item })
}

/// Whether there are enough false hashes to fill the bag.
pub fn can_fill(table: &Table) -> bool {
    (liars(table).len() * table.periods) << table.m().min(8) >= BAG_SIZE
}

/// False hashes, as many as the bag has room for and no two the same.
pub fn false_hashes(random: &mut Random, table: &Table) -> impl Iterator<Item = Step> {
    let (liars, periods) = (liars(table), table.periods);
    let mask = random.bits() & all_items(table.m());
    (0..BAG_SIZE).map(move |k| {
        let (peer, sheet) = (liars[k % liars.len()], k / liars.len());
        let board = (sheet / periods) as u64 ^ mask;
        Step::FalseHash { peer, period: sheet % periods, board }
    })
}
