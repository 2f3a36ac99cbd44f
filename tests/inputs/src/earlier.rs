//! What comes before the exchange of a close: periods with random calls, of which
//! all but the last are settled, and now and then a bag that is nearly full.

use crate::closes::{is_hash, Closing, Lack};
use crate::making::Making;
use crate::peers::quorum_of;
use reference::form::Step;
use reference::state::{Entry, BAG_SIZE};
use reference::union::union_board;

impl Closing<'_, '_> {
    /// Up to the exchange: periods with random calls, each settled but the last,
    /// which all close; the next one may have begun.
    pub fn prepare(&mut self) {
        for period in 0..=self.period {
            self.cast_some(period);
            self.roam(10);
            self.close_all(period);
            if period < self.period {
                self.settle(period);
                self.settled += 1;
            }
        }
        if self.period + 1 < self.making.table.periods && self.making.random.once_in(2) {
            self.cast_some(self.period + 1);
        }
        self.roam(10);
        self.all_up();
        self.board = Some(union_board(&self.making.table, &self.making.state, self.period));
    }

    /// Some items, often without any that clash, reach some of the peers, and some
    /// signatures are taken. Where something lacks none are, so that it matters.
    fn cast_some(&mut self, period: usize) {
        let n = self.making.table.n;
        let fair = self.making.fair_items(64);
        let random = &mut *self.making.random;
        let most = [2, 6, 24][random.below(3)].min(96 / n);
        let any = random.drawn(0..self.making.table.m());
        let items = if random.once_in(2) { random.drawn(fair.into_iter()) } else { any };
        let count = random.between(1, most).min(items.len());
        let reach = [50, 80, 100, 100][random.below(4)];
        let taken = [0, 20, 100][random.below(3)] / n.div_ceil(6);
        let taken = if self.lack == Lack::Nothing { taken } else { 0 };
        self.cast(period, &items[..count], reach, taken);
    }

    /// The items go to so many of the peers in a hundred, in whichever period each
    /// is, and so many of the signatures in a hundred are taken; what shares and
    /// receipts there can be follow.
    fn cast(&mut self, period: usize, items: &[usize], reach: usize, taken: usize) {
        let (n, making) = (self.making.table.n, &mut *self.making);
        let pairs = || (1..=n).flat_map(|peer| items.iter().map(move |item| (peer, *item)));
        let handed = making.random.some_of(reach, pairs());
        let takes = pairs().flat_map(|pair| (1..=n).map(move |other| (pair, other)));
        let takes = making.random.some_of(taken, takes);
        making.together(items.iter().map(|item| Step::Post { item: *item }));
        making.together(handed.iter().map(|(peer, item)| Step::Hand { peer: *peer, item: *item }));
        making.together(handed.iter().map(|(peer, item)| Step::Sign { peer: *peer, item: *item }));
        let take = |((peer, item), other)| Step::Take { peer, other, period, item };
        making.together(takes.into_iter().map(take));
        if taken > 0 {
            making.together(pairs().map(|(peer, item)| Step::Share { peer, item }));
            making.together(items.iter().map(|item| Step::Receipt { period, item: *item }));
        }
    }

    /// All peers come up, and leave the period if they are in it.
    fn close_all(&mut self, period: usize) {
        self.all_up();
        for peer in self.making.honest() {
            while self.making.state.peer(peer).p <= period {
                self.call(Step::Close { peer });
            }
        }
    }

    fn all_up(&mut self) {
        self.making.together(self.making.honest().into_iter().map(|peer| Step::Up { peer }));
    }

    /// One peer fetches from all and all fetch from it; each hears a quorum's hashes of
    /// the board, and who has not backed the period does. Now and then the board is
    /// published.
    fn settle(&mut self, period: usize) {
        let peers = self.making.honest();
        let first = self.making.random.between(1, peers.len());
        let fetch = |peer, other| Step::Fetch { peer, other, period };
        self.making.together(peers.iter().map(|other| fetch(first, *other)));
        self.making.together(peers.iter().map(|peer| fetch(*peer, first)));
        self.making.together(peers.iter().map(|peer| Step::Hash { peer: *peer, period }));
        let board = self.making.state.peer(first).board(&self.making.table, period);
        let hashes = self.making.entries(|entry| is_hash(entry, period, &board));
        for peer in &peers {
            let Making { random, table, state, .. } = &mut *self.making;
            let signer = |entry: &usize| signer(&state.bag[*entry]);
            let heard = quorum_of(random, table, hashes.iter().copied(), signer);
            let hears = heard.into_iter().map(|entry| Step::Hear { peer: *peer, entry });
            self.making.together(hears);
        }
        let due = peers.iter().filter(|peer| self.making.state.peer(**peer).c == period);
        let backs: Vec<Step> = due.map(|peer| Step::Back { peer: *peer }).collect();
        self.making.together(backs.into_iter());
        let last = self.making.state.bag.len() - 1;
        if self.making.random.once_in(2) {
            self.call(Step::Publish { entry: last });
        }
    }

    /// Two periods more in which all sign what they can, and then hashes of boards
    /// that grow, until only so many entries are free beside those needed.
    pub fn fill(&mut self, free: usize) {
        let (items, periods) = (self.making.fair_items(64), self.making.table.periods);
        let open = self.making.state.peers.iter().map(|peer| peer.p).max().unwrap_or(0);
        self.close_all(open - 1);
        for period in open..periods.min(open + 2) {
            self.cast(period, &items, 100, 0);
            self.close_all(period);
        }
        while self.making.state.bag.len() + self.needed() + free < BAG_SIZE {
            let Some((peer, period, item)) = self.growth() else { return };
            let signed = |k: &usize| self.making.state.signatures.contains(&(*k, period, item));
            let signers: Vec<usize> = self.making.honest().into_iter().filter(signed).collect();
            let take = |other| Step::Take { peer, other, period, item };
            self.making.together(signers.into_iter().map(take));
            self.call(Step::Hash { peer, period });
        }
    }

    /// An item that can join a peer's board of a closed period.
    fn growth(&mut self) -> Option<(usize, usize, usize)> {
        let (table, state) = (&self.making.table, &self.making.state);
        let mut can = Vec::new();
        for period in 0..table.periods {
            let board = union_board(table, state, period);
            for peer in (1..=table.n).filter(|peer| state.peer(*peer).p > period) {
                let own = state.peer(peer).board(table, period);
                can.extend(board.difference(&own).map(|item| (peer, period, *item)));
            }
        }
        self.making.random.pick(can.into_iter())
    }
}

/// Who signed a hash.
fn signer(entry: &Entry) -> usize {
    match entry {
        Entry::Hash { signer, .. } => *signer,
        _ => unreachable!("a hash"),
    }
}
