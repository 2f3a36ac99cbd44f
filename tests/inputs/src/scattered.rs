//! States that no steps need lead to: anything anywhere, and a bag of any entries.

use crate::random::Random;
use reference::state::{Entry, State};
use reference::table::Table;
use std::collections::BTreeSet;

/// An entry with those who heard it.
pub type Heard = (Entry, BTreeSet<usize>);

/// A state with anything anywhere, but for the bag.
pub fn scattered(random: &mut Random, table: &Table) -> State {
    let (n, periods, m) = (table.n, table.periods, table.m());
    let pairs = || (0..periods).flat_map(move |q| (0..m).map(move |i| (q, i)));
    let triples = || (1..=n).flat_map(move |k| pairs().map(move |(q, i)| (k, q, i)));
    let mut state = State::fresh(table);
    state.posted = random.some_of(70, 0..m).into_iter().collect();
    state.signatures = random.some_of(30, triples()).into_iter().collect();
    state.shares = random.some_of(30, triples()).into_iter().collect();
    state.receipts = random.some_of(30, pairs()).into_iter().collect();
    for peer in &mut state.peers {
        peer.held = random.some_of(20, pairs()).into_iter().collect();
        for (q, i) in pairs() {
            random.some_of(60, 1..=n).into_iter().for_each(|k| peer.record(k, q, i));
        }
        peer.p = random.between(0, periods);
        peer.c = random.between(0, peer.p);
        peer.up = !random.once_in(4);
    }
    state
}

/// These entries, and then so many tries of random ones, often of the period: all
/// different, and no more than there is room for. Any peers heard the hashes.
pub fn entries(
    random: &mut Random,
    table: &Table,
    period: usize,
    first: Vec<Entry>,
    tries: usize,
    room: usize,
) -> Vec<Heard> {
    let mut entries: Vec<Heard> = Vec::new();
    let mut enter = |random: &mut Random, entry: Entry| {
        if entries.len() < room && !entries.iter().any(|(other, _)| *other == entry) {
            let heard = match entry {
                Entry::Hash { .. } => random.some_of(40, 1..=table.n),
                _ => Vec::new(),
            };
            entries.push((entry, heard.into_iter().collect()));
        }
    };
    first.into_iter().for_each(|entry| enter(random, entry));
    for _ in 0..tries {
        let signer = random.between(1, table.n);
        let period = [period, random.below(table.periods)][random.below(2)];
        let board = random.some_of(50, 0..table.m()).into_iter().collect();
        let entry = match random.below(4) {
            0 => Entry::Backing { signer, period, board },
            1 => Entry::Board { period, board },
            _ => Entry::Hash { signer, period, board },
        };
        enter(random, entry);
    }
    entries
}

/// These entries are the bag, and heard so.
pub fn put(state: &mut State, entries: &[Heard]) {
    state.bag = entries.iter().map(|(entry, _)| entry.clone()).collect();
    for j in 1..=state.peers.len() {
        let heard = (0..entries.len()).filter(|number| entries[*number].1.contains(&j));
        state.peer_mut(j).heard = heard.collect();
    }
}
