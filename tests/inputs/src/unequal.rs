//! Peers of unequal weight: tables, and rehearsals in which a few great peers are a
//! quorum with some others, and all the others are none.

use crate::making::Making;
use crate::peers::{one_great, Peers};
use crate::places::FREE;
use crate::random::Random;
use crate::tables::{any_honest, audit, random_items};
use reference::form::{bits, Step};
use reference::season::Season::Weighted;
use reference::state::Entry;

/// A table of four to eight peers, of whom one weighs more than the others, or any do.
pub fn unequal_table(random: &mut Random) -> Vec<u8> {
    let (n, m) = (random.between(4, 8), random.between(1, 8));
    let mut peers = Peers::of(random, Weighted, n);
    if random.once_in(2) {
        peers.weights = one_great(random, n);
    }
    let items = random_items(random, &[Weighted], m);
    let (t, honest) = (peers.threshold(random), any_honest(random, n));
    peers.table_of(t, honest, random.between(1, 8), &items)
}

/// The peers by weight: the great ones weigh 4, the small ones 1.
struct Unequal {
    great: Vec<usize>,
    small: Vec<usize>,
}

/// A period in which everything is tried by the small peers first, who are as many as
/// it would take without weights. The threshold is above n. Item 0 is signed by all, item
/// 1 by the small peers alone.
pub fn unequal(random: &mut Random, number: usize) -> Vec<u8> {
    let n: usize = [4, 5, 6, 8, 16][number % 5];
    let mut small = random.drawn(1..=n);
    let great = small.split_off(n - n.div_ceil(7));
    let weight = |peer| if great.contains(&peer) { 4 } else { 1 };
    let peers = Peers { season: Weighted, weights: (1..=n).map(weight).collect() };
    let liars = &small[..random.below(2)];
    let m = random.below(6);
    let two = [FREE, FREE + 1].map(|ballot| audit(random, Weighted, ballot)).to_vec();
    let items = [two, random_items(random, &[Weighted], m)].concat();
    let text = peers.table(peers.least(), liars, random.between(1, 3), &items);
    let mut making = Making::on(random, text);
    let unequal = Unequal { great, small };
    making.cast(&unequal);
    making.close(&unequal);
    making.wander(20);
    making.input()
}

impl Making<'_> {
    fn honest_among(&self, peers: &[usize]) -> Vec<usize> {
        peers.iter().copied().filter(|peer| self.table.is_honest(*peer)).collect()
    }

    /// The honest ones among these peers do something, each for itself.
    fn each(&mut self, peers: &[usize], step: impl Fn(usize) -> Step) {
        self.together(self.honest_among(peers).into_iter().map(step));
    }

    /// The dishonest peers do.
    fn lies(&mut self, step: impl Fn(usize) -> Step) {
        self.together(self.liars().into_iter().map(step));
    }

    /// Every honest peer takes what these have signed.
    fn take_all(&mut self, item: usize, others: &[usize]) {
        let take = |peer| others.iter().map(move |other| (peer, *other));
        let takes: Vec<(usize, usize)> = self.honest().into_iter().flat_map(take).collect();
        let step = |(peer, other)| Step::Take { peer, other, period: 0, item };
        self.together(takes.into_iter().map(step));
    }

    fn cast(&mut self, Unequal { great, small }: &Unequal) {
        self.together([0, 1].into_iter().map(|item| Step::Post { item }));
        for (item, peers) in [(0, great), (0, small), (1, small)] {
            self.each(peers, |peer| Step::Hand { peer, item });
            self.each(peers, |peer| Step::Sign { peer, item });
        }
        for item in [0, 1] {
            self.lies(|peer| Step::FalseSignature { peer, period: 0, item });
            self.take_all(item, small);
        }
        let (share, receipt) =
            (|peer| Step::Share { peer, item: 0 }, Step::Receipt { period: 0, item: 0 });
        self.each(small, share);
        self.take_all(0, great);
        self.each(small, share);
        self.lies(|peer| Step::FalseShare { peer, period: 0, item: 0 });
        self.together([receipt].into_iter());
        self.each(great, share);
        self.together([receipt].into_iter());
    }

    fn close(&mut self, Unequal { great, small }: &Unequal) {
        let all = self.honest();
        self.each(&all, |peer| Step::Close { peer });
        self.each(&all, |peer| Step::Hash { peer, period: 0 });
        let board = bits(&self.state.peer(great[0]).board(&self.table, 0));
        self.lies(|peer| Step::FalseHash { peer, period: 0, board });
        self.hear_all(small);
        self.each(small, |peer| Step::Back { peer });
        self.hear_all(great);
        self.each(small, |peer| Step::Back { peer });
        self.lies(|peer| Step::FalseBacking { peer, period: 0, board });
        let publish = |entry| Step::Publish { entry };
        let backings = self.entries(|entry| matches!(entry, Entry::Backing { .. }));
        self.together(backings.iter().copied().map(publish));
        self.each(great, |peer| Step::Back { peer });
        self.together(backings.into_iter().map(publish));
    }

    /// Every honest peer hears the hashes of these.
    fn hear_all(&mut self, signers: &[usize]) {
        let is_theirs =
            |entry: &Entry| matches!(entry, Entry::Hash { signer, .. } if signers.contains(signer));
        let entries = self.entries(is_theirs);
        for peer in self.honest() {
            self.together(entries.iter().map(|entry| Step::Hear { peer, entry: *entry }));
        }
    }
}
