//! Runs in bursts of steps that belong together: what peers, members and the
//! outsider do. Each burst is then shuffled, repeated or lost. `offers` has what
//! members do.

use crate::answers::last_op;
use crate::clears::likely_clear;
use crate::making::Making;
use crate::period::posts;
use crate::steps::{all_items, uniform};
use reference::form::{bits, write_step, Step};
use reference::state::Peer;

/// A run of which so many steps in a hundred are lost, and as many repeated.
pub(crate) struct Bursts<'a, 'b> {
    pub making: &'b mut Making<'a>,
    loss: usize,
}

impl Making<'_> {
    /// A whole run: posts, then so many bursts of every sort, on a table with
    /// items and honest peers.
    pub fn run_in_bursts(&mut self, bursts: usize) {
        let loss = [0, 2, 10][self.random.below(3)];
        Bursts { making: self, loss }.go(bursts);
    }
}

impl Bursts<'_, '_> {
    fn go(&mut self, bursts: usize) {
        self.deliver(posts(&self.making.table).collect());
        for _ in 0..bursts {
            if self.chance(60) {
                self.all_up();
            }
            match self.below(18) {
                0..=3 => self.offer(),
                4 => self.close_some(),
                5..=6 => self.commit(),
                7 => self.late_databases(),
                8..=9 => self.lies(),
                10 => self.outage(),
                11 => self.garbage(),
                12 => self.replay(),
                13 => self.receipts(),
                14 => self.flood(),
                15 => self.offer_again(),
                16 => self.clear(),
                _ => self.chatter(),
            }
        }
        self.all_up();
        self.commit();
        self.receipts();
        self.commit();
    }

    /// Lost, repeated and shuffled, then called.
    pub fn deliver(&mut self, steps: Vec<Step>) {
        let mut list = Vec::new();
        for step in steps {
            if !self.chance(self.loss) {
                list.push(step);
            }
            if self.chance(self.loss) {
                list.push(step);
            }
        }
        match self.below(6) {
            0 => self.making.random.shuffle(&mut list),
            1 => self.swap_neighbours(&mut list),
            _ => {}
        }
        for step in list {
            self.making.call_any(write_step(step).to_vec());
        }
    }

    fn swap_neighbours(&mut self, list: &mut [Step]) {
        for k in 1..list.len() {
            if self.chance(30) {
                list.swap(k - 1, k);
            }
        }
    }

    /// Some peers leave their open period, or all those that are in one.
    pub fn close_some(&mut self) {
        let period = self.open_period();
        let part = [30, 100][self.below(2)];
        let mut round = Vec::new();
        for peer in self.making.honest() {
            if self.making.state.peer(peer).p == period && self.chance(part) {
                round.push(Step::Close { peer });
            }
        }
        self.deliver(round);
    }

    /// Optimistic commit, with the fallback in between now and then.
    fn commit(&mut self) {
        let period = self.next_to_back();
        let mut round = if self.chance(40) { self.fallback(period) } else { Vec::new() };
        round.extend(self.making.honest().into_iter().map(|peer| Step::Hash { peer, period }));
        self.deliver(round);
        let entries = self.making.state.bag.len();
        let mut round = Vec::new();
        for peer in self.making.honest() {
            let hear = |entry| Step::Hear { peer, entry };
            round.extend((entries.saturating_sub(20)..entries).map(hear));
        }
        round.extend(self.making.honest().into_iter().map(|peer| Step::Back { peer }));
        self.deliver(round);
        let publish = |entry| Step::Publish { entry };
        self.deliver((0..self.making.state.bag.len()).map(publish).collect());
    }

    fn fallback(&mut self, period: usize) -> Vec<Step> {
        let mut round = Vec::new();
        for peer in self.making.honest() {
            for other in self.making.honest() {
                if self.chance(70) {
                    round.push(Step::Fetch { peer, other, period });
                }
            }
        }
        round
    }

    /// Databases arrive late, and the peers are asked for shares once more.
    fn late_databases(&mut self) {
        let (item, period) = (self.item(), self.next_to_back());
        let round = self.fallback(period);
        self.deliver(round);
        self.shares(item, period);
    }

    /// The dishonest peers sign hashes and backings of boards: those that
    /// honest peers have, or any.
    fn lies(&mut self) {
        let period = self.next_to_back();
        let mut round = Vec::new();
        for peer in self.making.liars() {
            let mut boards = vec![0, self.board()];
            for j in self.making.honest() {
                let board = self.making.state.peer(j).board(&self.making.table, period);
                boards.push(bits(&board));
            }
            for board in boards {
                round.push(Step::FalseHash { peer, period, board });
                round.push(Step::FalseBacking { peer, period, board });
            }
        }
        self.deliver(round);
    }

    /// Now and then a dishonest peer fills the bag with hashes of any boards.
    fn flood(&mut self) {
        let liars = self.making.liars();
        if liars.is_empty() || self.chance(80) {
            return;
        }
        let mut round = Vec::new();
        for _ in 0..400 {
            let peer = liars[self.below(liars.len())];
            let (period, board) = (self.period(), self.board());
            round.push(Step::FalseHash { peer, period, board });
        }
        self.deliver(round);
    }

    /// Old hashes are cleared, and now and then sent again.
    fn clear(&mut self) {
        let Making { random, table, state, .. } = &mut *self.making;
        let clear = likely_clear(random, table, state);
        self.deliver(vec![clear]);
        if let (Step::Clear { period }, true) = (clear, self.chance(50)) {
            self.for_each_honest(|peer| Step::Hash { peer, period });
        }
    }

    /// A peer drops out, misses something and comes back.
    fn outage(&mut self) {
        let peer = 1 + self.below(self.making.table.n);
        self.deliver(vec![Step::Down { peer }]);
        match self.chance(50) {
            true => self.offer(),
            false => self.commit(),
        }
        self.deliver(vec![Step::Up { peer }]);
    }

    fn all_up(&mut self) {
        self.for_each_honest(|peer| Step::Up { peer });
    }

    /// Bytes of any sort and length.
    fn garbage(&mut self) {
        for _ in 0..5 {
            let length = [13, 13, 13, 0, 12, 14][self.below(6)];
            let mut bytes = self.making.random.bytes(length);
            if self.chance(70) && length == 13 {
                bytes[0] %= last_op() + 2;
            }
            self.making.call_any(bytes);
        }
    }

    /// Earlier calls, once more and later than they were meant.
    fn replay(&mut self) {
        for _ in 0..10 {
            let again = self.making.random.pick(self.making.steps.iter()).cloned();
            again.into_iter().for_each(|bytes| self.making.call_any(bytes));
        }
    }

    /// Any op with any numbers in the fields that it uses.
    fn chatter(&mut self) {
        for _ in 0..20 {
            let step = uniform(self.making.random, &self.making.table);
            self.making.call_any(step);
        }
    }

    pub fn for_each_honest(&mut self, step: impl Fn(usize) -> Step) {
        self.deliver(self.making.honest().into_iter().map(step).collect());
    }

    pub fn below(&mut self, bound: usize) -> usize {
        self.making.random.below(bound)
    }

    pub fn chance(&mut self, percent: usize) -> bool {
        self.making.random.chance(percent)
    }

    pub fn item(&mut self) -> usize {
        self.below(self.making.table.m())
    }

    fn period(&mut self) -> usize {
        self.below(self.making.table.periods)
    }

    fn board(&mut self) -> u64 {
        self.making.random.bits() & all_items(self.making.table.m())
    }

    /// Mostly the open period of some honest peer.
    pub fn open_period(&mut self) -> usize {
        self.likely_period(|peer| peer.p, 90)
    }

    /// Mostly the period that some honest peer is to back next.
    fn next_to_back(&mut self) -> usize {
        self.likely_period(|peer| peer.c, 80)
    }

    /// A counter of some honest peer, where it is a period, that often in a
    /// hundred; else any period.
    fn likely_period(&mut self, counter: fn(&Peer) -> usize, often: usize) -> usize {
        let honest = self.making.honest();
        let peer = honest[self.below(honest.len())];
        let period = counter(self.making.state.peer(peer));
        if period < self.making.table.periods && self.chance(often) {
            period
        } else {
            self.period()
        }
    }
}
