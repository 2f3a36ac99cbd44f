//! What closes were like, counted: what stood between the calls of the exchange, and
//! what the tables and the states made of them.

use crate::closes::{Called, Ran};
use crate::through::boards;
use inputs::quorums::{few_are_enough, many_are_too_few};
use reference::form::Step;
use reference::season::Season;
use reference::state::{Entry, Peer};
use reference::table::Kind;
use reference::union::union;
use std::collections::{BTreeMap, BTreeSet};

/// How often a close had something.
#[derive(Debug, Default)]
pub struct Hits(BTreeMap<&'static str, usize>);

impl Hits {
    pub fn add(&mut self, name: &'static str, hit: bool) {
        *self.0.entry(name).or_default() += hit as usize;
    }

    /// What was seen fewer times.
    pub fn rare(&self, least: usize) -> Vec<&'static str> {
        let rare = self.0.iter().filter(|(_, times)| **times < least);
        rare.map(|(name, _)| *name).collect()
    }
}

/// Whether a step is a take of the period.
pub fn is_take_of(step: &Step, of: usize) -> bool {
    matches!(step, Step::Take { period, .. } if *period == of)
}

/// What stands between the calls of the exchange, and is answered 0 unless it is
/// said to be refused.
pub fn between(ran: &Ran, hits: &mut Hits) {
    let is_of = |period: usize| period == ran.period;
    let other = |step: &Step| match step {
        Step::Fetch { period, .. } | Step::Hash { period, .. } => !is_of(*period),
        _ => false,
    };
    let take = |step: &Step| matches!(step, Step::Take { period, .. } if !is_of(*period));
    hits.add("a post", ran.any(|step| matches!(step, Step::Post { .. })));
    hits.add("a hand", ran.any(|step| matches!(step, Step::Hand { .. })));
    hits.add("a sign", ran.any(|step| matches!(step, Step::Sign { .. })));
    hits.add("a take of another period", ran.any(take));
    hits.add("a share", ran.any(|step| matches!(step, Step::Share { .. })));
    hits.add("a share given before", ran.calls.iter().any(|call| call.answer == 17));
    hits.add("a receipt", ran.any(|step| matches!(step, Step::Receipt { .. })));
    hits.add("a close", ran.any(|step| matches!(step, Step::Close { .. })));
    hits.add("a publish", ran.any(|step| matches!(step, Step::Publish { .. })));
    let clear =
        |of: bool| ran.any(|step| matches!(step, Step::Clear { period } if is_of(*period) == of));
    hits.add("a clear of another period", clear(false));
    hits.add("a clear of the period, once all have backed it", clear(true));
    let early = |call: &Called| {
        matches!(call.step, Some(Step::Clear { period }) if is_of(period)) && call.answer == 9
    };
    hits.add("a clear of the period before that", ran.calls.iter().any(early));
    hits.add("an up", ran.any(|step| matches!(step, Step::Up { .. })));
    hits.add("a fetch or hash of another period", ran.any(other));
    let refused = |call: &Called| call.answer != 0;
    let back = |call: &Called| matches!(call.step, Some(Step::Back { .. })) && refused(call);
    hits.add("a refused back", ran.calls.iter().any(back));
    hits.add("a refused back before a fetch", ran.early_back(refused));
    hits.add("bytes that are no step", ran.calls.iter().any(|call| call.step.is_none()));
}

/// What the close itself is like.
pub fn alike(ran: &Ran, hits: &mut Hits) {
    let (table, n, p) = (&ran.pair.table, ran.pair.table.n, ran.period);
    let has = |peer: &Peer, item| table.is_quorum(&peer.signers(p, item));
    let alone = |item: &usize| !ran.start.peers.iter().any(|peer| has(peer, *item));
    hits.add("an item that no database alone has", ran.board.iter().any(alone));
    hits.add("no items", ran.board.is_empty());
    hits.add("the old season", table.season == Season::Old);
    hits.add("the new season", table.season == Season::New);
    let is_placed = |item: &usize| matches!(table.items[*item].kind, Kind::PlacedAudit(_));
    hits.add("an audit with its place", ran.board.iter().any(is_placed));
    hits.add("a period after the first", p > 0);
    hits.add("all fetches before all hashes", n > 1 && ran.fetches_come_first());
    hits.add("all hashes heard", ran.heard.iter().all(|heard| heard.len() == n));
    let only_t = |heard: &BTreeSet<usize>| heard.len() < n && table.weight(heard) == table.t;
    hits.add("only t hashes heard", ran.heard.iter().any(only_t));
    let own = (1..=n).filter(|peer| ran.heard[peer - 1].contains(peer));
    hits.add("an own hash not heard", own.count() < n);
    let another = |entry: &Entry| match entry {
        Entry::Hash { period, board, .. } => *period == p && *board != ran.board,
        _ => false,
    };
    hits.add("a hash of another board", ran.pair.state.bag.iter().any(another));
    hits.add("250 entries or more", ran.pair.state.bag.len() >= 250);
    hits.add("the board published before the end", !boards(&ran.pair.state, p).is_empty());
}

/// What weights make of it.
pub fn weighed(ran: &Ran, hits: &mut Hits) {
    let table = &ran.pair.table;
    let signers: Vec<BTreeSet<usize>> = union(&ran.start, ran.period).into_values().collect();
    let few = |peers: &BTreeSet<usize>| few_are_enough(table, peers);
    let many = |peers: &BTreeSet<usize>| many_are_too_few(table, peers);
    hits.add("unequal weights", table.weights.iter().any(|weight| *weight != table.weights[0]));
    hits.add("a threshold above n", table.t > table.n);
    hits.add("an item of few signers", signers.iter().any(few));
    hits.add("no board for an item of many signers", signers.iter().any(many));
    hits.add("few hashes heard", ran.heard.iter().any(few));
}
