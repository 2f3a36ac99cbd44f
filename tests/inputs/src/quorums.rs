//! What weights decide, of document 02's P8, and numbers of peers would decide otherwise:
//! where that shows.

use crate::rehearsed::{Outcome, Rehearsed};
use reference::form::{read_step, Step};
use reference::state::{Board, Entry, State};
use reference::step::step;
use reference::table::{Table, LEAST_THRESHOLD};
use std::collections::{BTreeMap, BTreeSet};

/// Where a quorum is asked for.
pub const ASKED: [&str; 5] = ["share", "receipt", "back", "publish", "board"];

/// Of whom a quorum is asked, and where.
pub type Asked = (&'static str, BTreeSet<usize>);

/// Of whom a call asks a quorum, by the state before it; behind that, the signers of each
/// item of which it makes a board. One that names no peer of the table asks nothing.
pub fn asked(table: &Table, state: &State, bytes: &[u8]) -> Vec<Asked> {
    let Ok(step) = read_step(bytes) else {
        return Vec::new();
    };
    if let Step::Share { peer, .. } | Step::Hash { peer, .. } | Step::Back { peer } = step {
        if !(1..=table.n).contains(&peer) {
            return Vec::new();
        }
    }
    let board = signers_by_item(state, step).into_iter().map(|signers| ("board", signers));
    asked_itself(table, state, step).into_iter().chain(board).collect()
}

/// Of whom a step asks a quorum, but for the items of boards.
fn asked_itself(table: &Table, state: &State, step: Step) -> Option<Asked> {
    match step {
        Step::Share { peer, item } => {
            Some(("share", state.peer(peer).signers(state.peer(peer).p, item)))
        }
        Step::Receipt { period, item } => Some(("receipt", state.sharers(period, item))),
        Step::Back { peer } => Some(("back", heard_alike(table, state, peer))),
        Step::Publish { entry } => {
            let (period, board) = state.backing(entry)?;
            Some(("publish", backers(state, period, &board)))
        }
        _ => None,
    }
}

/// The signers of the hashes heard that have the peer's board of the period due.
fn heard_alike(table: &Table, state: &State, j: usize) -> BTreeSet<usize> {
    let peer = state.peer(j);
    let board = peer.board(table, peer.c);
    let signer = |entry: &usize| match &state.bag[*entry] {
        Entry::Hash { signer, period, board: b } => {
            (*period == peer.c && *b == board).then_some(*signer)
        }
        _ => None,
    };
    peer.heard.iter().filter_map(signer).collect()
}

fn backers(state: &State, period: usize, board: &Board) -> BTreeSet<usize> {
    let signer = |entry: &Entry| match entry {
        Entry::Backing { signer, period: q, board: b } => {
            (*q == period && b == board).then_some(*signer)
        }
        _ => None,
    };
    state.bag.iter().filter_map(signer).collect()
}

/// The signers of each item of the database of which a step makes a board.
fn signers_by_item(state: &State, step: Step) -> Vec<BTreeSet<usize>> {
    let (peer, period) = match step {
        Step::Hash { peer, period } => (peer, period),
        Step::Back { peer } => (peer, state.peer(peer).c),
        _ => return Vec::new(),
    };
    let database = state.peer(peer).database.iter();
    database.filter(|((q, _), _)| *q == period).map(|(_, signers)| signers.clone()).collect()
}

/// Fewer than t peers, who weigh enough.
pub fn few_are_enough(table: &Table, peers: &BTreeSet<usize>) -> bool {
    peers.len() < table.t && table.is_quorum(peers)
}

/// As many as would do if no peer weighed more than another, who weigh too little; where
/// the threshold is the least for W.
pub fn many_are_too_few(table: &Table, peers: &BTreeSet<usize>) -> bool {
    let is_least = 3 * (table.t - 1) <= 2 * table.whole_weight();
    is_least && peers.len() >= LEAST_THRESHOLD[table.n - 1] && !table.is_quorum(peers)
}

/// How often few peers were enough, and many too few, by where a quorum was asked for.
#[derive(Debug, Default)]
pub struct Decided {
    few: BTreeMap<&'static str, usize>,
    many: BTreeMap<&'static str, usize>,
}

impl Decided {
    /// What a call asked, with its answer. One that is refused before is not counted.
    pub fn count(&mut self, table: &Table, asked: &[Asked], answer: u8) {
        for (name, peers) in asked.iter().filter(|_| [0, 12, 13].contains(&answer)) {
            let decides = *name != "board";
            assert!(!decides || table.is_quorum(peers) == (answer != 12), "{name}: {answer}");
            *self.few.entry(name).or_default() += few_are_enough(table, peers) as usize;
            *self.many.entry(name).or_default() += many_are_too_few(table, peers) as usize;
        }
    }

    /// Where one of both was seen fewer times.
    pub fn rare(&self, least: usize) -> Vec<String> {
        let of = |counts: &BTreeMap<&str, usize>, name| counts.get(name).copied().unwrap_or(0);
        let counted = ASKED.map(|name| (name, [of(&self.few, name), of(&self.many, name)]));
        let rare = counted.iter().filter(|(_, times)| times.iter().any(|times| *times < least));
        rare.map(|(name, times)| format!("{name}: few and many {times:?}")).collect()
    }
}

/// Whether a rehearsal shows both wherever a quorum is asked for.
pub fn shows_weights(rehearsed: &Rehearsed, outcome: &Outcome) -> bool {
    let (mut decided, mut state) = (Decided::default(), State::fresh(&outcome.table));
    for (bytes, answer) in rehearsed.calls() {
        decided.count(&outcome.table, &asked(&outcome.table, &state, bytes), answer);
        step(&outcome.table, &mut state, bytes);
    }
    decided.rare(1).is_empty()
}
