//! Two lists of calls that pass a peer the same messages and differ otherwise.

use crate::random::Random;
use crate::steps::random_steps;
use reference::field::passed::{passed, Passed};
use reference::state::State;
use reference::step::step;
use reference::table::Table;

/// A list of calls with any bytes.
pub type Calls = Vec<Vec<u8>>;

/// What a list passes to peer j, one after the other.
pub fn messages(table: &Table, calls: &Calls, j: usize) -> Vec<Passed> {
    let mut state = State::fresh(table);
    let mut messages = Vec::new();
    for call in calls {
        messages.extend(passed(table, &state, j, call));
        step(table, &mut state, call);
    }
    messages
}

/// Another list that passes peer j the same: calls that are of no other use to it are
/// gone, and other peers' calls have come between. So many changes are tried.
pub fn alike(random: &mut Random, table: &Table, calls: &Calls, j: usize, tries: usize) -> Calls {
    let (same, mut other) = (messages(table, calls, j), calls.clone());
    for _ in 0..tries {
        let changed = match random.below(2) {
            0 => without(random, &other, j),
            _ => with_more(random, table, &other, j),
        };
        if messages(table, &changed, j) == same {
            other = changed;
        }
    }
    other
}

/// Without some of the calls of one window that do not name the peer.
fn without(random: &mut Random, calls: &Calls, j: usize) -> Calls {
    let from = random.below(calls.len());
    let window = from..from + random.between(1, 12);
    let mut at = 0..;
    let mut stays = |call: &Vec<u8>| {
        let inside = window.contains(&at.next().expect("no end"));
        !inside || names(call, j) || random.once_in(4)
    };
    let mut calls = calls.clone();
    calls.retain(|call| stays(call));
    calls
}

/// With some random calls at one place that do not name the peer.
fn with_more(random: &mut Random, table: &Table, calls: &Calls, j: usize) -> Calls {
    let at = random.below(calls.len() + 1);
    let mut state = State::fresh(table);
    for call in &calls[..at] {
        step(table, &mut state, call);
    }
    let mut more = random_steps(random, table, &state);
    more.retain(|call| !names(call, j));
    let mut calls = calls.clone();
    calls.splice(at..at, more);
    calls
}

/// Whether the peer byte of a call is the peer's number.
fn names(call: &[u8], j: usize) -> bool {
    call.get(1).is_some_and(|peer| *peer as usize == j)
}
