//! Closes of a period, of document 02's P3: all peers are honest, and every call
//! of the exchange is there, with any other calls between; or one thing is
//! lacking. `earlier` has what comes before the exchange, `exchange` the rest.

use crate::making::Making;
use crate::peers::Peers;
use crate::random::Random;
use crate::steps::random_steps;
use crate::tables::{random_season, Shape};
use reference::form::{read_step, write_step, Step};
use reference::season::Season;
use reference::state::{Board, Entry, BAG_SIZE};
use reference::step::step;
use reference::union::union;
use std::collections::BTreeSet;

/// A close of a period: the calls up to it, and those of the exchange.
pub struct Close {
    pub text: Vec<u8>,
    pub period: usize,
    pub earlier: Vec<Vec<u8>>,
    pub later: Vec<Vec<u8>>,
}

/// What a close lacks.
#[derive(Clone, Copy, Debug, PartialEq, Eq)]
pub enum Lack {
    Nothing,
    /// A peer sends its hash, and then fetches from one more.
    HashAfterFetches,
    /// A peer backs before it fetches.
    BackingAfterFetches,
    /// A peer's only back stands before its last fetch, and is refused.
    BackAfterFetches,
    /// With t = W nobody hears its own hash.
    OwnHash,
    /// One peer, or all, do not fetch from another.
    Fetch,
    /// A peer goes down and stays so.
    AllUp,
}

/// Which takes of the period may be accepted during the exchange.
#[derive(Clone, Copy, Debug, PartialEq, Eq)]
pub enum Takes {
    /// Any, as they come.
    Any,
    /// Some, of what is outside.
    Some,
    /// Some, of what some peer's database of the period has.
    Known,
    None,
}

/// A close in the making.
pub(crate) struct Closing<'a, 'b> {
    pub making: &'b mut Making<'a>,
    pub period: usize,
    pub lack: Lack,
    pub takes: Takes,
    /// Whether it is in document 02's own order.
    pub in_turn: bool,
    /// The periods that all peers have backed.
    pub settled: usize,
    /// The board of the union, once the exchange can begin.
    pub board: Option<Board>,
    /// The peers that have to fetch before they back the period.
    pub unready: BTreeSet<usize>,
    /// A peer that stays down.
    pub fallen: Option<usize>,
}

/// A close that lacks nothing, by its number: of every number of peers and every
/// threshold in turn, without weights and with them, and more often of few peers.
pub fn close(random: &mut Random, number: usize) -> Close {
    let fills = number % 64 == 32;
    let (peers, t) = peers_by_number(random, number, if fills { 4 } else { 1 });
    let n = peers.weights.len();
    if fills {
        let shape = Shape { n, periods: 8, m: random.between(40, 64) };
        let free = [0, random.between(1, 6)][number / 64 % 2];
        return make(random, shape, &peers, t, Some(free), Lack::Nothing);
    }
    let shape = Shape { n, ..Shape::random(random, 1) };
    make(random, shape, &peers, t, None, Lack::Nothing)
}

/// The peers of a close and their threshold: of every number of peers in turn, or of
/// these fewest to six.
pub(crate) fn peers_by_number(random: &mut Random, number: usize, fewest: usize) -> (Peers, usize) {
    let turn = number / 8;
    let in_turn = [Season::Old, Season::Weighted, Season::New, Season::Weighted][turn / 16 % 4];
    let (n, season) = match number % 8 {
        7 => (1 + turn % 16, in_turn),
        _ => (random.between(fewest, 6), random_season(random)),
    };
    let peers = Peers::of(random, season, n);
    let t = match number % 8 {
        7 => peers.least() + turn / 32 % (peers.sum() - peers.least() + 1),
        _ => peers.threshold(random),
    };
    (peers, t)
}

/// A close that lacks something, unless the calls between make up for it.
pub fn wrong_close(random: &mut Random, lack: Lack) -> Close {
    // From 4 peers on a peer is more than needed.
    let spare = [Lack::BackAfterFetches, Lack::Fetch].contains(&lack);
    let n = random.between(if spare { 4 } else { 2 }, 6);
    let peers = Peers::random(random, n);
    let t = match lack {
        Lack::OwnHash => peers.sum(),
        _ if spare => peers.least(),
        _ => random.between(peers.least(), peers.sum()),
    };
    let shape = Shape { n, periods: random.between(1, 3), m: random.between(1, 8) };
    make(random, shape, &peers, t, None, lack)
}

/// A close on an honest table, with so many entries free at the exchange beside
/// those that it needs, or any number.
fn make(
    random: &mut Random,
    shape: Shape,
    peers: &Peers,
    t: usize,
    free: Option<usize>,
    lack: Lack,
) -> Close {
    // With more peers fewer periods: a settled one takes n entries twice.
    let most = if free.is_some() { 2 } else { shape.periods.min(1 + 24 / shape.n) };
    let period = random.below(most);
    let text = shape.table_with(random, peers, t, &[]);
    let mut making = Making::on(random, text);
    let unready = making.honest().into_iter().collect();
    let making = &mut making;
    let (takes, in_turn, board, fallen) = (Takes::Any, false, None, None);
    let mut closing =
        Closing { making, period, lack, takes, in_turn, settled: 0, board, unready, fallen };
    closing.prepare();
    free.into_iter().for_each(|free| closing.fill(free));
    let start = closing.making.steps.len();
    closing.exchange();
    let Making { text, steps, .. } = closing.making;
    let later = steps.split_off(start);
    Close { text: text.clone(), period, earlier: steps.clone(), later }
}

impl Closing<'_, '_> {
    pub fn call(&mut self, step: Step) {
        self.making.call(write_step(step).to_vec());
    }

    /// At most so many random calls, or earlier ones once more, of which those are
    /// made that may stand here.
    pub fn roam(&mut self, most: usize) {
        for _ in 0..self.making.random.between(0, most) {
            let making = &mut *self.making;
            let mut calls = random_steps(making.random, &making.table, &making.state);
            if making.random.once_in(6) {
                calls = making.random.pick(making.steps.iter().cloned()).into_iter().collect();
            }
            making.random.shuffle(&mut calls);
            for bytes in calls.into_iter().take(4) {
                if self.may(&bytes) {
                    self.making.call_any(bytes);
                }
            }
        }
    }

    /// Whether a call may stand here: it uses no entry that is needed, brings
    /// nobody down during the exchange nor up who stays down, is no backing of the
    /// period by a peer that has to fetch first, and takes and clears nothing that it
    /// should not.
    fn may(&self, bytes: &[u8]) -> bool {
        let has_room = || self.making.state.bag.len() + self.needed() < BAG_SIZE;
        match read_step(bytes) {
            Ok(Step::Down { peer }) => self.board.is_none() || !self.making.table.is_honest(peer),
            Ok(Step::Up { peer }) => self.fallen != Some(peer),
            Ok(Step::Back { peer }) => has_room() && !self.backs_early(peer, bytes),
            Ok(Step::Hash { period, .. }) => has_room() && self.may_hash(period),
            Ok(Step::Publish { .. }) => has_room(),
            Ok(Step::Clear { period }) => self.may_clear(period) || !self.is_taken(bytes),
            Ok(Step::Take { other, period, item, .. }) if period == self.period => {
                self.may_take(other, item) || !self.is_taken(bytes)
            }
            _ => true,
        }
    }

    /// Whether a hash may be sent here: not one of the period where what is taken would
    /// make it another than that of the exchange.
    fn may_hash(&self, period: usize) -> bool {
        self.takes != Takes::Some || period != self.period
    }

    /// Whether a signature of the period may be taken here.
    pub fn may_take(&self, signer: usize, item: usize) -> bool {
        match self.takes {
            Takes::Any | Takes::Some => true,
            Takes::Known => {
                let union = union(&self.making.state, self.period);
                union.get(&item).is_some_and(|signers| signers.contains(&signer))
            }
            Takes::None => false,
        }
    }

    /// Whether a clear may be taken here: it is of another period, and the bag is not
    /// meant to be full.
    fn may_clear(&self, period: usize) -> bool {
        period != self.period && !self.is_nearly_full()
    }

    pub fn is_nearly_full(&self) -> bool {
        self.making.state.bag.len() > BAG_SIZE - 56
    }

    fn backs_early(&self, peer: usize, bytes: &[u8]) -> bool {
        self.unready.contains(&peer)
            && self.making.state.peer(peer).c == self.period
            && self.is_taken(bytes)
    }

    /// Whether a call would be answered 0.
    fn is_taken(&self, bytes: &[u8]) -> bool {
        step(&self.making.table, &mut self.making.state.clone(), bytes) == 0
    }

    /// The number of entries that the exchange still needs, and at most so many
    /// before it: of each peer a hash and a backing, and of a settled period its
    /// board.
    pub fn needed(&self) -> usize {
        let n = self.making.table.n;
        let Some(board) = &self.board else {
            return (2 * n + 1) * (self.period + 1 - self.settled);
        };
        let is = |entry: &Entry| {
            is_hash(entry, self.period, board) || is_backing(entry, self.period, board)
        };
        2 * n - self.making.entries(is).len()
    }
}

/// Whether an entry is a hash of this board.
pub(crate) fn is_hash(entry: &Entry, period: usize, board: &Board) -> bool {
    matches!(entry, Entry::Hash { period: q, board: b, .. } if *q == period && b == board)
}

fn is_backing(entry: &Entry, period: usize, board: &Board) -> bool {
    matches!(entry, Entry::Backing { period: q, board: b, .. } if *q == period && b == board)
}
