//! The exchange of a close: every peer fetches from every other, sends its hash,
//! hears hashes and backs, in any order that serves and with other calls between.

use crate::closes::{is_hash, Closing, Lack, Takes};
use crate::making::Making;
use crate::peers::quorum_of;
use reference::form::Step;
use reference::state::{Board, Entry};
use std::collections::{BTreeMap, BTreeSet};

/// A call of the exchange. What a peer hears is the hash that the other has sent.
#[derive(Clone, Copy)]
enum Task {
    Fetch { peer: usize, other: usize },
    Hash { peer: usize },
    Hear { peer: usize, other: usize },
    Back { peer: usize },
    Down { peer: usize },
}

/// The tasks with their times; of two at one time the lesser rank comes first.
struct Times {
    tasks: Vec<(usize, usize, Task)>,
    /// When each peer has sent its hash, and when it can back.
    hashed: Vec<usize>,
    ready: Vec<usize>,
}

/// How long a part of the exchange takes, and when all that is not late is over.
const SPAN: usize = 1_000;
const LATE: usize = 20 * SPAN;

/// The order of document 02, where all peers hear all hashes.
const PART_BY_PART: usize = 1;

/// What is drawn for a close: its order, whom each peer hears, and what it lacks.
struct Draw {
    /// All at once, part by part, or peer after peer.
    order: usize,
    hears: Vec<BTreeSet<usize>>,
    lack: Lack,
    /// The peer that is at fault, and the other from whom it does not fetch, or
    /// not in time; or that goes for all peers, and for all others.
    peer: usize,
    other: usize,
    all: bool,
}

impl Draw {
    /// From whom a peer fetches.
    fn fetches(&self, peer: usize, n: usize) -> Vec<usize> {
        let lacks = self.lack == Lack::Fetch && (self.all || peer == self.peer);
        let left_out = if lacks { self.other } else { peer };
        (1..=n).filter(|other| *other != peer && *other != left_out).collect()
    }

    /// Whether a fetch comes after all that does not wait for it.
    fn is_late(&self, peer: usize, other: usize) -> bool {
        let late = [Lack::HashAfterFetches, Lack::BackAfterFetches].contains(&self.lack);
        late && peer == self.peer && (self.all || other == self.other)
    }
}

impl Closing<'_, '_> {
    /// The exchange, with other calls before, between and after its own.
    pub fn exchange(&mut self) {
        let noise = [0, 15, 40, 100][self.making.random.below(4)] * 4 / (3 + self.making.table.n);
        let draw = self.draw();
        self.roam(6);
        if self.lack == Lack::BackingAfterFetches {
            self.back_early();
        }
        let tasks = self.tasks(&draw);
        let mut sent = BTreeMap::new();
        for at in 0..tasks.len() {
            if self.making.random.chance(noise) {
                self.roam(2);
            }
            if [Takes::Some, Takes::Known].contains(&self.takes) && self.making.random.once_in(3) {
                self.take_one();
            }
            self.perform(tasks[at], &mut sent);
            self.unready = self.unready_before(&tasks[at + 1..]);
        }
        if self.making.random.once_in(4) && !self.is_nearly_full() {
            self.call(Step::Clear { period: self.period });
        }
        self.roam(6);
    }

    /// Some peer takes a signature of the period that is outside and may be taken.
    fn take_one(&mut self) {
        let period = self.period;
        let may = |(k, q, i): &(usize, usize, usize)| *q == period && self.may_take(*k, *i);
        let outside: Vec<_> = self.making.state.signatures.iter().copied().filter(may).collect();
        let peer = self.making.random.between(1, self.making.table.n);
        if let Some((other, _, item)) = self.making.random.pick(outside.into_iter()) {
            self.call(Step::Take { peer, other, period, item });
        }
    }

    /// Who has to fetch before it backs the period, by what is still to be done: in
    /// document 02's order nobody backs before the last fetch of all.
    fn unready_before(&self, tasks: &[Task]) -> BTreeSet<usize> {
        let fetcher = |task: &Task| match task {
            Task::Fetch { peer, .. } => Some(*peer),
            _ => None,
        };
        let fetchers: BTreeSet<usize> = tasks.iter().filter_map(fetcher).collect();
        match self.in_turn && !fetchers.is_empty() {
            true => (1..=self.making.table.n).collect(),
            false => fetchers,
        }
    }

    fn perform(&mut self, task: Task, sent: &mut BTreeMap<usize, Entry>) {
        let period = self.period;
        match task {
            Task::Fetch { peer, other } => self.call(Step::Fetch { peer, other, period }),
            Task::Hash { peer } => {
                self.call(Step::Hash { peer, period });
                sent.insert(peer, self.own_hash(peer));
            }
            Task::Hear { peer, other } => {
                let entry = self.number_of(&sent[&other]);
                self.call(Step::Hear { peer, entry });
            }
            Task::Back { peer } => self.call(Step::Back { peer }),
            Task::Down { peer } => {
                self.call(Step::Down { peer });
                self.fallen = Some(peer);
            }
        }
    }

    /// The hash of a peer's board as it is now.
    fn own_hash(&self, signer: usize) -> Entry {
        Entry::Hash { signer, period: self.period, board: self.board_of(signer) }
    }

    /// The number that an entry has now; if it is not there, as when the peer was down,
    /// any number.
    fn number_of(&self, sent: &Entry) -> usize {
        self.making.state.bag.iter().position(|entry| entry == sent).unwrap_or(0)
    }

    fn board_of(&self, peer: usize) -> Board {
        self.making.state.peer(peer).board(&self.making.table, self.period)
    }

    /// The peers that have the same board as some peer send their hashes of it;
    /// that peer hears them and backs, before it fetches.
    fn back_early(&mut self) {
        let (n, period) = (self.making.table.n, self.period);
        let peer = self.making.random.between(1, n);
        let board = self.board_of(peer);
        for other in (1..=n).filter(|other| self.board_of(*other) == board).collect::<Vec<_>>() {
            self.call(Step::Hash { peer: other, period });
        }
        for entry in self.making.entries(|entry| is_hash(entry, period, &board)) {
            self.call(Step::Hear { peer, entry });
        }
        self.call(Step::Back { peer });
    }

    fn draw(&mut self) -> Draw {
        let (lack, in_turn) = (self.lack, self.in_turn);
        let Making { random, table, .. } = &mut *self.making;
        let n = table.n;
        // Of those whom a peer hears beyond a quorum.
        let more = if in_turn { 100 } else { [100, 0, random.below(100)][random.below(3)] };
        let but_own = [Lack::OwnHash, Lack::BackAfterFetches].contains(&lack);
        let mut heard = |peer: usize| {
            let others = || (1..=n).filter(|other| !but_own || *other != peer);
            let quorum = quorum_of(random, table, others(), |other| *other);
            [quorum, random.some_of(more, others())].concat().into_iter().collect()
        };
        let hears = (1..=n).map(&mut heard).collect();
        let peers = random.drawn(1..=n);
        let (peer, other) = (peers[0], peers[1 % n]);
        let order = if in_turn { PART_BY_PART } else { random.below(3) };
        Draw { order, hears, lack, peer, other, all: random.once_in(2) }
    }

    /// Every task in its order: each has a random time, or if that is later the
    /// time of the last task that must come before it.
    fn tasks(&mut self, draw: &Draw) -> Vec<Task> {
        let n = self.making.table.n;
        let mut times = Times { tasks: Vec::new(), hashed: vec![0; n + 1], ready: vec![0; n + 1] };
        (1..=n).for_each(|peer| self.fetch_and_hash(draw, peer, &mut times));
        (1..=n).for_each(|peer| self.hear_and_back(draw, peer, &mut times));
        if draw.lack == Lack::AllUp {
            let (time, _, _) = times.tasks[self.making.random.below(times.tasks.len())];
            times.tasks.push((time, 4, Task::Down { peer: draw.peer }));
        }
        times.tasks.sort_by_key(|(time, rank, _)| (*time, *rank));
        times.tasks.into_iter().map(|(_, _, task)| task).collect()
    }

    fn fetch_and_hash(&mut self, draw: &Draw, peer: usize, times: &mut Times) {
        let mut hashed = self.time(draw, 1, peer);
        for other in draw.fetches(peer, self.making.table.n) {
            let late = draw.is_late(peer, other);
            let time = self.time(draw, 0, peer) + if late { LATE } else { 0 };
            times.tasks.push((time, 0, Task::Fetch { peer, other }));
            if !late || draw.lack != Lack::HashAfterFetches {
                hashed = hashed.max(time);
            }
            if !late || draw.lack != Lack::BackAfterFetches {
                times.ready[peer] = times.ready[peer].max(time);
            }
        }
        times.hashed[peer] = hashed;
        times.tasks.push((hashed, 1, Task::Hash { peer }));
    }

    fn hear_and_back(&mut self, draw: &Draw, peer: usize, times: &mut Times) {
        let mut ready = times.ready[peer].max(self.time(draw, 3, peer));
        for other in &draw.hears[peer - 1] {
            let time = self.time(draw, 2, peer).max(times.hashed[*other]);
            times.tasks.push((time, 2, Task::Hear { peer, other: *other }));
            ready = ready.max(time);
        }
        times.tasks.push((ready, 3, Task::Back { peer }));
    }

    /// A random time for a peer's task of a part.
    fn time(&mut self, draw: &Draw, part: usize, peer: usize) -> usize {
        let from = [0, part, peer][draw.order];
        SPAN * from + self.making.random.below(SPAN)
    }
}
