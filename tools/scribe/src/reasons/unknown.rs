//! Refusal 10: what the step names is not there.

use super::phrases::{comma_list, entry, item_list};
use super::refusals::Reason;
use crate::steps::items_of;
use reference::form::Step;
use reference::state::{Board, State};

/// 10: an item, a signature or an entry that is not there.
pub fn unknown(state: &State, step: Step) -> Reason {
    match step {
        Step::Hand { item, .. }
        | Step::FalseSignature { item, .. }
        | Step::FalseShare { item, .. } => not_posted(state, [item].into()),
        Step::FalseHash { board, .. } | Step::FalseBacking { board, .. } => {
            not_posted(state, items_of(board).collect())
        }
        Step::Sign { peer, item } => not_held(state, peer, item),
        Step::Take { other, period, item, .. } => not_signed(state, other, period, item),
        Step::Hear { entry, .. } => no_entry(state, entry, "hash"),
        Step::Publish { entry } => no_entry(state, entry, "backing"),
        _ => None,
    }
}

fn not_posted(state: &State, items: Board) -> Reason {
    let missing: Vec<&usize> = items.difference(&state.posted).collect();
    let reason = || {
        let are = if missing.len() == 1 { "is" } else { "are" };
        format!("{} {are} not posted", item_list(missing.iter().copied()))
    };
    (!missing.is_empty()).then(reason)
}

fn not_held(state: &State, j: usize, item: usize) -> Reason {
    let peer = state.peer(j);
    let held = peer.held.iter().filter(|held| held.1 == item);
    let elsewhere: Vec<usize> = held.map(|held| held.0).collect();
    let p = peer.p;
    let reason = || match elsewhere[..] {
        [] => format!("peer {j} does not hold item {item}; its open period is {p}"),
        _ => {
            let there = comma_list(&elsewhere);
            format!("peer {j} does not hold item {item} in its open period {p}, but in {there}")
        }
    };
    (!elsewhere.contains(&p)).then(reason)
}

fn not_signed(state: &State, other: usize, period: usize, item: usize) -> Reason {
    let there = state.signatures.iter().filter(|(_, q, i)| (*q, *i) == (period, item));
    let signers: Vec<usize> = there.map(|signature| signature.0).collect();
    let reason = || {
        let start = format!("peer {other} has not signed item {item} in period {period}");
        match signers[..] {
            [] => format!("{start}, nor has any other"),
            _ => format!("{start}: it is signed by {}", comma_list(&signers)),
        }
    };
    (!signers.contains(&other)).then(reason)
}

/// The entry is absent, or of another kind.
fn no_entry(state: &State, number: usize, kind: &str) -> Reason {
    let entries = state.bag.len();
    let Some(there) = state.bag.get(number) else {
        return Some(match entries {
            0 => format!("there is no entry {number}: the bag is empty"),
            1 => format!("there is no entry {number}: the bag has entry 0 alone"),
            _ => format!("there is no entry {number}: the bag has entries 0 to {}", entries - 1),
        });
    };
    let told = entry(there);
    (!told.starts_with(kind)).then(|| format!("entry {number} is no {kind} but the {told}"))
}
