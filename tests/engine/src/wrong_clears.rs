//! Engines that go wrong on purpose at document 02's P11: they clear at another time, or
//! something else. Each must be found.

use crate::layout::{count, decode, encode, ENTRIES, ENTRY_LENGTH, LENGTH};
use crate::row14::is_state;
use crate::{Engine, PLAIN};
use inputs::clears::is_hash_of;
use reference::form::{read_step, Step};
use reference::state::{Entry, State};
use reference::table::{read_table, Table};
use std::collections::BTreeSet;

/// Whether a period may be cleared, and what goes then.
type IsDue = fn(&Table, &State, usize) -> bool;
type Remove = fn(&Table, &mut State, usize);

/// A clear of a period that the table has, by another rule.
fn clear(table: &[u8], state: &mut [u8], step: &[u8], is_due: IsDue, remove: Remove) -> u8 {
    let (Ok(text), Ok(Step::Clear { period })) = (read_table(table), read_step(step)) else {
        return (PLAIN.step)(table, state, step);
    };
    if period >= text.periods || !is_state(&text, state) {
        return (PLAIN.step)(table, state, step);
    }
    let mut after = decode(&text, state);
    if !is_due(&text, &after, period) {
        return 9;
    }
    remove(&text, &mut after, period);
    state.copy_from_slice(&encode(&after));
    0
}

fn is_backed(table: &Table, state: &State, period: usize) -> bool {
    table.honest.iter().all(|peer| state.peer(*peer).c > period)
}

fn remove_hashes(_table: &Table, state: &mut State, period: usize) {
    keep(state, |entry| !is_hash_of(entry, period));
}

/// The entries that are so stay in their order, and what was heard follows.
fn keep(state: &mut State, stays: impl Fn(&Entry) -> bool) {
    let stay = (0..state.bag.len()).filter(|number| stays(&state.bag[*number])).collect();
    keep_in_order(state, stay);
}

/// The entries with these numbers stay in this order, and what was heard follows.
fn keep_in_order(state: &mut State, stay: Vec<usize>) {
    state.bag = stay.iter().map(|number| state.bag[*number].clone()).collect();
    for peer in &mut state.peers {
        let follows = (0..stay.len()).filter(|new| peer.heard.contains(&stay[*new])).collect();
        peer.heard = follows;
    }
}

/// The last entry fills each gap.
fn fill_gaps(_table: &Table, state: &mut State, period: usize) {
    let mut stay: Vec<usize> = (0..state.bag.len()).collect();
    while let Some(gap) = stay.iter().position(|e| is_hash_of(&state.bag[*e], period)) {
        stay.swap_remove(gap);
    }
    keep_in_order(state, stay);
}

/// Who heard a removed hash has heard the one that takes its number.
fn inherit(table: &Table, state: &mut State, period: usize) {
    let before = state.clone();
    remove_hashes(table, state, period);
    let stays = |number: &usize| !is_hash_of(&before.bag[*number], period);
    for (peer, old) in state.peers.iter_mut().zip(&before.peers) {
        let removed = old.heard.iter().filter(|number| !stays(number));
        let numbers = removed.map(|number| (0..*number).filter(stays).count());
        let is_hash = |number: &usize| matches!(state.bag.get(*number), Some(Entry::Hash { .. }));
        peer.heard.extend(numbers.filter(is_hash));
    }
}

/// What these peers heard keeps its numbers.
fn leave_heard(state: &mut State, period: usize, peers: impl Fn(usize) -> bool) {
    let before = state.clone();
    keep(state, |entry| !is_hash_of(entry, period));
    for j in (1..=before.peers.len()).filter(|j| peers(*j)) {
        state.peer_mut(j).heard = before.peer(j).heard.clone();
    }
}

/// The signers of the period's backings.
fn backers(state: &State, period: usize) -> BTreeSet<usize> {
    let signer = |entry: &Entry| match entry {
        Entry::Backing { signer, period: q, .. } if *q == period => Some(*signer),
        _ => None,
    };
    state.bag.iter().filter_map(signer).collect()
}

/// The bytes of entries that went are left behind the last one.
fn freed_left(table: &[u8], state: &mut [u8], step: &[u8]) -> u8 {
    let before = state.to_vec();
    let answer = (PLAIN.step)(table, state, step);
    if answer == 0 && step[0] == 19 {
        let end = ENTRIES + ENTRY_LENGTH * count(state);
        state[end..LENGTH].copy_from_slice(&before[end..]);
    }
    answer
}

/// A clear whose unused fields are not looked at.
fn unused_free(table: &[u8], state: &mut [u8], step: &[u8]) -> u8 {
    match step {
        [19, _, _, period, rest @ ..] if rest.len() == 9 => {
            let formed = [&[19, 0, 0, *period], &[0; 9][..]].concat();
            (PLAIN.step)(table, state, &formed)
        }
        _ => (PLAIN.step)(table, state, step),
    }
}

const fn wrong(name: &'static str, step: fn(&[u8], &mut [u8], &[u8]) -> u8) -> Engine {
    Engine { name, step, ..PLAIN }
}

/// An engine that judges a clear so.
macro_rules! due {
    ($name:literal, $is_due:expr) => {
        wrong($name, |table, state, step| clear(table, state, step, $is_due, remove_hashes))
    };
}

/// One that removes so.
macro_rules! removing {
    ($name:literal, $remove:expr) => {
        wrong($name, |table, state, step| clear(table, state, step, is_backed, $remove))
    };
}

/// By the rule itself, and else like those below: it must not be found.
pub const RIGHT_CLEARS: Engine = due!("cleared by the rule", is_backed);

/// They clear at another time.
pub const WRONG_TIMES: [Engine; 12] = [
    due!("c at least the period", |table, state, period| {
        table.honest.iter().all(|peer| state.peer(*peer).c >= period)
    }),
    due!("dishonest peers asked too", |_, state, period| {
        state.peers.iter().all(|peer| peer.c > period)
    }),
    due!("peer 1 alone asked", |_, state, period| state.peer(1).c > period),
    due!("one honest peer enough", |table, state, period| {
        table.honest.is_empty() || table.honest.iter().any(|peer| state.peer(*peer).c > period)
    }),
    due!("a quorum's backings asked", |table, state, period| {
        table.is_quorum(&backers(state, period))
    }),
    due!("the board asked", |_, state, period| state.boards().iter().any(|(q, _)| *q == period)),
    due!("closed for backed", |table, state, period| {
        table.honest.iter().all(|peer| state.peer(*peer).p > period)
    }),
    due!("down peers refuse", |table, state, period| {
        is_backed(table, state, period) && table.honest.iter().all(|peer| state.peer(*peer).up)
    }),
    due!("down peers not asked", |table, state, period| {
        let mut up = table.honest.iter().filter(|peer| state.peer(**peer).up);
        up.all(|peer| state.peer(*peer).c > period)
    }),
    due!("an honest peer needed", |table, state, period| {
        is_backed(table, state, period) && !table.honest.is_empty()
    }),
    due!("something to remove needed", |table, state, period| {
        is_backed(table, state, period) && state.bag.iter().any(|entry| is_hash_of(entry, period))
    }),
    BACKINGS_ASKED,
];

/// Only in a lent state an honest peer's backings and its counter differ.
pub const BACKINGS_ASKED: Engine = due!("the bag's backings asked", |table, state, period| {
    table.honest.is_subset(&backers(state, period))
});

/// They remove something else, or number the rest otherwise.
pub const WRONG_REMOVALS: [Engine; 13] = [
    removing!("nothing removed", |_, _, _| {}),
    removing!("heard numbers not moved", |_, state, period| leave_heard(state, period, |_| true)),
    removing!("removed ones still heard", inherit),
    removing!("all heard forgotten", |table, state, period| {
        remove_hashes(table, state, period);
        state.peers.iter_mut().for_each(|peer| peer.heard.clear());
    }),
    removing!("backings removed", |_, state, period| {
        keep(state, |entry| match entry {
            Entry::Hash { period: q, .. } | Entry::Backing { period: q, .. } => *q != period,
            Entry::Board { .. } => true,
        })
    }),
    removing!("boards removed", |_, state, period| {
        keep(state, |entry| match entry {
            Entry::Hash { period: q, .. } | Entry::Board { period: q, .. } => *q != period,
            Entry::Backing { .. } => true,
        })
    }),
    removing!("order not kept", fill_gaps),
    removing!("honest hashes only", |table, state, period| {
        let is_honest = |entry: &Entry| match entry {
            Entry::Hash { signer, .. } => table.is_honest(*signer),
            _ => false,
        };
        keep(state, |entry| !is_hash_of(entry, period) || !is_honest(entry))
    }),
    removing!("peer 1's hashes only", |_, state, period| {
        keep(state, |entry| {
            !matches!(entry, Entry::Hash { signer: 1, .. }) || !is_hash_of(entry, period)
        })
    }),
    removing!("earlier periods too", |_, state, period| {
        keep(state, |entry| !(0..=period).any(|q| is_hash_of(entry, q)))
    }),
    removing!("one hash at a time", |_, state, period| {
        let first = state.bag.iter().position(|entry| is_hash_of(entry, period));
        keep_in_order(state, (0..state.bag.len()).filter(|e| Some(*e) != first).collect());
    }),
    wrong("freed bytes left", freed_left),
    DISHONEST_LEFT,
];

/// Only in a lent state a dishonest peer has heard something.
pub const DISHONEST_LEFT: Engine = wrong("dishonest hearers left", |table, state, step| {
    clear(table, state, step, is_backed, |table, state, period| {
        leave_heard(state, period, |peer| !table.is_honest(peer))
    })
});

/// What is judged before.
pub const WRONG_FORMS: [Engine; 3] = [
    wrong("unused fields free", unused_free),
    wrong("9 before 6", |table, state, step| match (PLAIN.step)(table, state, step) {
        6 if step[0] == 19 => 9,
        answer => answer,
    }),
    wrong("still form", |table, state, step| {
        match (PLAIN.step)(table, &mut state.to_vec(), step) {
            0 | 6 | 9 if step[0] == 19 => 5,
            _ => (PLAIN.step)(table, state, step),
        }
    }),
];
