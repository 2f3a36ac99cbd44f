//! Refusal 12: fewer than t, or weighing less.

use super::phrases::{comma_list, item_list};
use super::quorum::{is_short, told_of_threshold};
use super::refusals::Reason;
use reference::form::Step;
use reference::state::{Board, Entry, State};
use reference::table::Table;
use std::collections::BTreeSet;

/// A quorum that is not there: who is, and the words.
type Quorum = (BTreeSet<usize>, String);

/// 12: fewer than t signers, shares, heard hashes or backings, or weighing less.
pub fn short(table: &Table, state: &State, step: Step) -> Reason {
    let (peers, told) = match step {
        Step::Share { peer, item } => signers(table, state, peer, item),
        Step::Receipt { period, item } => sharers(table, state, period, item),
        Step::Back { peer } => hashes(table, state, peer),
        Step::Publish { entry } => backers(table, state, entry)?,
        _ => return None,
    };
    is_short(table, &peers).then_some(told)
}

/// The signers on an item in the peer's open period; and in others, if any.
fn signers(table: &Table, state: &State, j: usize, item: usize) -> Quorum {
    let peer = state.peer(j);
    let p = peer.p;
    let signers = peer.database.get(&(p, item)).cloned().unwrap_or_default();
    let what = format!("signers on item {item} in its open period {p}");
    let mut told = format!("peer {j} has {}", told_of_threshold(table, &what, "", &signers));
    for ((period, _), others) in peer.database.iter().filter(|((q, i), _)| *q != p && *i == item) {
        told += &format!("; in period {period} it has {}", comma_list(others));
    }
    (signers, told)
}

fn sharers(table: &Table, state: &State, period: usize, item: usize) -> Quorum {
    let there = state.shares.iter().filter(|(_, q, i)| (*q, *i) == (period, item));
    let sharers = there.map(|share| share.0).collect();
    let what = format!("receipt shares in period {period}");
    let told = told_of_threshold(table, &what, "from ", &sharers);
    (sharers, format!("item {item} has {told}"))
}

/// The signers of the heard hashes that have the peer's board of period c; and
/// those of other boards, if any.
fn hashes(table: &Table, state: &State, j: usize) -> Quorum {
    let peer = state.peer(j);
    let own = peer.board(table, peer.c);
    let (mut alike, mut others) = (BTreeSet::new(), BTreeSet::new());
    for number in &peer.heard {
        if let Entry::Hash { signer, period, board } = &state.bag[*number] {
            if *period == peer.c {
                let signers = if *board == own { &mut alike } else { &mut others };
                signers.insert(*signer);
            }
        }
    }
    let what = format!("hashes of its board of period {}", peer.c);
    let mut told = told_of_threshold(table, &what, "from ", &alike);
    if !others.is_empty() {
        told += &format!("; of other boards from {}", comma_list(&others));
    }
    let told = format!("peer {j} has heard {told}; its board has {}", item_list(&own));
    (alike, told)
}

/// The signers of backings of the period and board that an entry backs.
fn backers(table: &Table, state: &State, entry: usize) -> Option<Quorum> {
    let (period, board) = state.backing(entry)?;
    let backers = backers_of(state, period, &board);
    let told = told_of_threshold(table, "backings", "from ", &backers);
    let told = format!("the board of period {period}, {}, has {told}", item_list(&board));
    Some((backers, told))
}

fn backers_of(state: &State, period: usize, board: &Board) -> BTreeSet<usize> {
    let signer = |entry: &Entry| match entry {
        Entry::Backing { signer, period: q, board: b } => {
            (*q == period && b == board).then_some(*signer)
        }
        _ => None,
    };
    state.bag.iter().filter_map(signer).collect()
}
