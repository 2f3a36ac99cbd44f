//! A close as all engines ran it: whether it has what document 02's P3 asks, seen
//! from its calls and answers alone.

use crate::pair::Pair;
use inputs::closes::Close;
use inputs::lent_closes::LentClose;
use reference::form::{read_step, Step};
use reference::state::{Board, Entry, State};
use reference::union::{union, union_board, Union};
use std::collections::BTreeSet;

/// A call of the exchange.
pub struct Called {
    /// None if the bytes are no step.
    pub step: Option<Step>,
    pub answer: u8,
    /// The hash that it sent or heard.
    hash: Option<Entry>,
    /// The board that it backs, if it is a backing of the period.
    pub(crate) backs: Option<Board>,
    /// Whether that backing was in the bag before.
    pub is_there: bool,
    /// Whether the union of the databases after it is the one before the exchange.
    pub(crate) same_union: bool,
}

/// A close that was run, with the state after it.
pub struct Ran {
    pub pair: Pair,
    pub period: usize,
    /// The state before the exchange, and the board of the union then.
    pub start: State,
    pub board: Board,
    pub calls: Vec<Called>,
    /// Of each peer: the number of calls after which it has fetched from every
    /// other; the place of its hash after these, and the entry.
    fetched: Vec<Option<usize>>,
    sent: Vec<Option<(usize, Entry)>>,
    /// Whose hashes of these it has heard before its last back, if that comes after
    /// its fetches.
    pub heard: Vec<BTreeSet<usize>>,
}

impl Ran {
    pub fn new(close: &Close) -> Ran {
        let mut pair = Pair::fresh(close.text.clone());
        for bytes in &close.earlier {
            pair.call(bytes);
        }
        Ran::on(pair, close.period, &close.later)
    }

    pub fn lent(close: &LentClose) -> Ran {
        Ran::on(Pair::lent(close.text.clone(), close.state.clone()), close.period, &close.calls)
    }

    /// The calls of the exchange, from a state.
    fn on(mut pair: Pair, period: usize, calls: &[Vec<u8>]) -> Ran {
        let (start, board) = (pair.state.clone(), union_board(&pair.table, &pair.state, period));
        let known = union(&start, period);
        let calls = calls.iter().map(|bytes| called(&mut pair, period, &known, bytes)).collect();
        let (fetched, sent, heard) = (Vec::new(), Vec::new(), Vec::new());
        let mut ran = Ran { pair, period, start, board, calls, fetched, sent, heard };
        let peers = 1..=ran.pair.table.n;
        ran.fetched = peers.clone().map(|peer| ran.fetches_of(peer)).collect();
        ran.sent = peers.clone().map(|peer| ran.hash_of(peer)).collect();
        ran.heard = peers.map(|peer| ran.heard_by(peer)).collect();
        ran
    }

    /// The first place of a step, at or after another.
    fn place(&self, from: usize, step: Step) -> Option<usize> {
        (from..self.calls.len()).find(|at| self.calls[*at].step == Some(step))
    }

    fn fetches_of(&self, peer: usize) -> Option<usize> {
        let others = (1..=self.pair.table.n).filter(|other| *other != peer);
        let period = self.period;
        let mut places = others.map(|other| self.place(0, Step::Fetch { peer, other, period }));
        places.try_fold(0, |last: usize, place| Some(last.max(place? + 1)))
    }

    fn hash_of(&self, peer: usize) -> Option<(usize, Entry)> {
        let from = self.fetched[peer - 1]?;
        let at = self.place(from, Step::Hash { peer, period: self.period })?;
        Some((at, self.calls[at].hash.clone()?))
    }

    fn heard_by(&self, peer: usize) -> BTreeSet<usize> {
        let backs = |call: &Called| call.step == Some(Step::Back { peer });
        let (last, from) = (self.calls.iter().rposition(backs), self.fetched[peer - 1]);
        let Some(last) = last.filter(|last| from.is_some_and(|from| from <= *last)) else {
            return BTreeSet::new();
        };
        let heard = |other: &usize| match &self.sent[*other - 1] {
            Some((at, sent)) if *at < last => {
                self.calls[*at..last].iter().any(|call| call.hears(peer, sent))
            }
            _ => false,
        };
        (1..=self.pair.table.n).filter(heard).collect()
    }

    /// The first thing that P3 asks and that is not so.
    pub fn lacks(&self) -> Option<&'static str> {
        let is_quorum = |heard: &BTreeSet<usize>| self.pair.table.is_quorum(heard);
        let due = |k: usize| {
            let peer = &self.start.peers[k];
            peer.up && peer.p > self.period && peer.c == self.period
        };
        let n = self.pair.table.n;
        let asked = [
            ("all honest", self.pair.table.honest_count() == n),
            ("all up and due", (0..n).all(due)),
            ("none down", !self.any(|step| matches!(step, Step::Down { .. }))),
            ("never full", self.calls.iter().all(|call| call.answer != 13)),
            ("every fetch", self.fetched.iter().all(Option::is_some)),
            ("no early backing", !self.early_back(|call| call.backs.is_some())),
            ("hashes after fetches", self.sent.iter().all(Option::is_some)),
            ("backs after fetches and hears", self.heard.iter().all(is_quorum)),
        ];
        asked.into_iter().find(|(_, is_so)| !is_so).map(|(name, _)| name)
    }

    /// Whether a back that is so stands before the peer's last fetch.
    pub fn early_back(&self, is: impl Fn(&Called) -> bool) -> bool {
        self.calls.iter().enumerate().any(|(at, call)| match call.step {
            Some(Step::Back { peer }) if (1..=self.pair.table.n).contains(&peer) => {
                Some(at) < self.fetched[peer - 1] && is(call)
            }
            _ => false,
        })
    }

    /// Whether all peers fetch before one sends its hash.
    pub fn fetches_come_first(&self) -> bool {
        let hashes = self.sent.iter().map(|sent| sent.as_ref().map(|(at, _)| *at));
        self.fetched.iter().max() <= hashes.min().as_ref()
    }

    /// Whether some step of the exchange is so, and was answered 0.
    pub fn any(&self, is: impl Fn(&Step) -> bool) -> bool {
        self.calls.iter().any(|call| call.answer == 0 && call.step.as_ref().is_some_and(&is))
    }

    /// Whether it is in document 02's own order: all fetches, then all hashes, then each
    /// hears all of these, then each backs; and no backing before the last fetch.
    pub fn is_in_turn(&self) -> bool {
        self.backs_in_turn().is_some()
    }

    fn backs_in_turn(&self) -> Option<()> {
        let (peers, period) = (1..=self.pair.table.n, self.period);
        let fetched = self.fetched.iter().copied().collect::<Option<Vec<usize>>>()?;
        let fetched = fetched.into_iter().max()?;
        let hash = |peer| self.place(fetched, Step::Hash { peer, period });
        let hashed = peers.clone().map(hash).collect::<Option<Vec<usize>>>()?;
        let after = hashed.iter().max()? + 1;
        let hears = |j: usize, at: &usize| {
            let sent = self.calls[*at].hash.as_ref()?;
            (after..self.calls.len()).find(|at| self.calls[*at].hears(j, sent))
        };
        let heard = peers.clone().flat_map(|j| hashed.iter().map(move |at| hears(j, at)));
        let after = heard.collect::<Option<Vec<usize>>>()?.into_iter().max()? + 1;
        let mut backs = peers.map(|peer| self.place(after, Step::Back { peer }));
        let early = self.calls[..fetched].iter().any(|call| call.backs.is_some());
        (!early && backs.all(|place| place.is_some())).then_some(())
    }
}

impl Called {
    /// Whether a peer hears this hash by it.
    fn hears(&self, peer: usize, sent: &Entry) -> bool {
        match self.step {
            Some(Step::Hear { peer: j, .. }) => j == peer && self.hash.as_ref() == Some(sent),
            _ => false,
        }
    }
}

/// One call, and what there is to see of it.
fn called(pair: &mut Pair, period: usize, known: &Union, bytes: &[u8]) -> Called {
    let step = read_step(bytes).ok();
    let backing = match step {
        Some(Step::Back { peer }) if (1..=pair.table.n).contains(&peer) => {
            backing_due(pair, period, peer)
        }
        _ => None,
    };
    let is_there = backing.as_ref().is_some_and(|(entry, _)| pair.state.bag.contains(entry));
    let answer = pair.call(bytes);
    let hash = match step {
        Some(Step::Hash { peer: signer, period }) if answer == 0 => {
            let board = pair.state.peer(signer).board(&pair.table, period);
            Some(Entry::Hash { signer, period, board })
        }
        Some(Step::Hear { entry, .. }) if answer == 0 => pair.state.bag.get(entry).cloned(),
        _ => None,
    };
    let backs = backing.filter(|_| answer == 0).map(|(_, board)| board);
    let is_there = is_there && backs.is_some();
    Called { step, answer, hash, backs, is_there, same_union: union(&pair.state, period) == *known }
}

/// The backing that a peer would send, if it is of the period, and its board.
fn backing_due(pair: &Pair, period: usize, signer: usize) -> Option<(Entry, Board)> {
    let peer = pair.state.peer(signer);
    let board = peer.board(&pair.table, period);
    (peer.c == period).then(|| (Entry::Backing { signer, period, board: board.clone() }, board))
}
