//! Long rehearsals in which most steps are taken: items are offered, signed and
//! receipted side by side, periods closed and boards published, with some steps
//! given too early. With many periods items come again: they are signed again, and
//! their shares are refused. The bench measures these.

use crate::making::Making;
use crate::random::Random;
use reference::form::{bits, write_step, Step, STEP_LENGTH};
use reference::report::INPUT_SIZE;
use reference::state::Entry;
use reference::table::write_table;

pub struct Protocol {
    pub name: &'static str,
    n: u8,
    t: u8,
    honest: u16,
    periods: u8,
    /// The items offered in each period.
    offers: usize,
}

pub const PROTOCOLS: [Protocol; 2] = [
    Protocol { name: "four-peers", n: 4, t: 3, honest: 0xF, periods: 8, offers: 24 },
    Protocol { name: "sixteen-peers", n: 16, t: 11, honest: 0x1FFF, periods: 4, offers: 5 },
];

impl Protocol {
    /// The bytes of the rehearsal, the same ones each time.
    pub fn input(&self) -> Vec<u8> {
        self.made(&mut Random::new(self.n as u64, 0)).input()
    }

    fn made<'a>(&self, random: &'a mut Random) -> Making<'a> {
        let table = write_table(self.n, self.t, self.honest, self.periods, &items());
        let mut making = Making::on(random, table);
        for period in 0..self.periods as usize {
            making.offer_items(period, self.offers);
            making.publish_board(period);
        }
        making
    }
}

const CALLED: Protocol =
    Protocol { name: "support-call", n: 7, t: 5, honest: 0x7F, periods: 8, offers: 9 };

/// A support call: 4,000 steps, and the last was refused. Seven peers see nine items
/// through in each of seven periods. In the eighth some are posted once more, and so is
/// item 30: peer 3 holds it and signs it again, and gives no share: 17. Why? It gave one
/// in the fourth period. 33 steps are left: by them five peers come to that period,
/// hold the item and sign it; peer 3 takes the others' signatures, gives its share,
/// closes the period, and is asked again.
pub fn support_call() -> Vec<u8> {
    let mut random = Random::new(CALLED.n as u64, 0);
    let mut making = CALLED.made(&mut random);
    let (peer, item) = (3, 30);
    let tail = [
        Step::Post { item },
        Step::Hand { peer, item },
        Step::Sign { peer, item },
        Step::Share { peer, item },
    ];
    making.steps.truncate(4_000 - tail.len());
    making.steps.extend(tail.map(|step| write_step(step).to_vec()));
    making.input()
}

/// 48 votes; 8 audits, which clash with votes; 8 cancellations.
fn items() -> Vec<Vec<u8>> {
    let item = |k: u32| {
        let (ballot, kind) = match k {
            0..48 => (k, 1),
            48..56 => (5 * (k - 48), 2),
            _ => (k - 56, 3),
        };
        let preferences = if kind == 1 { 3 + k % 10 } else { 0 };
        let start = (70_000 + ballot).to_be_bytes().into_iter().chain([kind]);
        start.chain((0..preferences).map(|at| (at * k % 11) as u8)).collect()
    };
    (0..64).map(item).collect()
}

impl Making<'_> {
    /// Adds a step, as long as there is room.
    fn give(&mut self, step: Step) {
        if self.text.len() + STEP_LENGTH * (self.steps.len() + 1) <= INPUT_SIZE {
            self.call(write_step(step).to_vec());
        }
    }

    fn give_all(&mut self, steps: impl IntoIterator<Item = Step>) {
        steps.into_iter().for_each(|step| self.give(step));
    }

    fn drawn_peers(&mut self) -> Vec<usize> {
        self.random.drawn(1..=self.table.n)
    }

    fn drawn_honest(&mut self) -> Vec<usize> {
        self.random.drawn(self.table.honest.iter().copied())
    }

    /// Items go their way side by side.
    fn offer_items(&mut self, period: usize, offers: usize) {
        let mut queues: Vec<Vec<Step>> =
            (0..offers).map(|k| self.way(period, (offers * period + k) % 64)).collect();
        queues.iter_mut().for_each(|queue| queue.reverse());
        while !queues.is_empty() {
            let at = self.random.below(queues.len());
            if self.random.once_in(30) {
                let early = self.random.pick(queues[at].iter().copied());
                self.give_all(early);
            }
            match queues[at].pop() {
                Some(step) => self.give(step),
                None => drop(queues.swap_remove(at)),
            }
        }
    }

    /// The way of an item from its post to its receipt. One that clashes with
    /// an item before it is handed once, and refused.
    fn way(&mut self, period: usize, item: usize) -> Vec<Step> {
        let mut way = vec![Step::Post { item }];
        if (0..item).any(|other| self.table.clash(item, other)) {
            way.push(Step::Hand { peer: self.drawn_honest()[0], item });
            return way;
        }
        for peer in self.drawn_peers() {
            if self.table.is_honest(peer) {
                way.extend([Step::Hand { peer, item }, Step::Sign { peer, item }]);
            } else {
                way.push(Step::FalseSignature { peer, period, item });
            }
        }
        for peer in self.drawn_honest() {
            let others = self.drawn_peers().into_iter().filter(|other| *other != peer);
            let takes = others.map(|other| Step::Take { peer, other, period, item });
            way.extend(takes.take(self.table.t));
        }
        way.extend(self.drawn_honest().into_iter().map(|peer| Step::Share { peer, item }));
        way.extend(self.liars().into_iter().map(|peer| Step::FalseShare { peer, period, item }));
        way.push(Step::Receipt { period, item });
        way
    }

    /// The period is closed, hashed, backed and published. One peer is down
    /// for a while.
    fn publish_board(&mut self, period: usize) {
        let honest = self.drawn_honest();
        let peer = honest[0];
        self.give_all(honest.iter().map(|peer| Step::Close { peer: *peer }));
        self.give_all([Step::Down { peer }, Step::Hash { peer, period }, Step::Up { peer }]);
        for pair in honest.windows(2) {
            self.give(Step::Fetch { peer: pair[0], other: pair[1], period });
        }
        self.give_all(honest.iter().map(|peer| Step::Hash { peer: *peer, period }));
        // The board that peer 1 finds.
        let board = bits(&self.state.peer(1).board(&self.table, period));
        let liars = self.liars();
        self.give_all(liars.iter().map(|peer| Step::FalseHash { peer: *peer, period, board }));
        self.hear_and_back(period);
        self.give_all(liars.iter().map(|peer| Step::FalseBacking { peer: *peer, period, board }));
        let backings =
            self.entries(|entry| matches!(entry, Entry::Backing { period: q, .. } if *q == period));
        self.give_all(backings.into_iter().take(2).map(|entry| Step::Publish { entry }));
    }

    /// Each honest peer hears some more hashes than it needs, and backs.
    fn hear_and_back(&mut self, period: usize) {
        let hashes =
            self.entries(|entry| matches!(entry, Entry::Hash { period: q, .. } if *q == period));
        for peer in self.drawn_honest() {
            let heard = self.random.drawn(hashes.iter().copied());
            let hears = heard.into_iter().take(self.table.t + 1);
            self.give_all(hears.map(|entry| Step::Hear { peer, entry }));
        }
        let backs = self.drawn_honest().into_iter().map(|peer| Step::Back { peer });
        self.give_all(backs);
    }
}
