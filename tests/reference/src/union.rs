//! The union of the peers' databases, of document 02's P3: what a close that
//! comes through puts on the board.

use crate::state::{Board, State};
use crate::table::Table;
use std::collections::{BTreeMap, BTreeSet};

/// Signer sets by item.
pub type Union = BTreeMap<usize, BTreeSet<usize>>;

/// The union of all peers' databases of a period.
pub fn union(state: &State, period: usize) -> Union {
    let mut union = Union::new();
    for peer in &state.peers {
        for ((q, item), signers) in &peer.database {
            if *q == period {
                union.entry(*item).or_default().extend(signers);
            }
        }
    }
    union
}

/// The items with t signers, by weight, in the union of the databases of a period.
pub fn union_board(table: &Table, state: &State, period: usize) -> Board {
    let has_quorum = |(_, signers): &(usize, BTreeSet<usize>)| table.is_quorum(signers);
    union(state, period).into_iter().filter(has_quorum).map(|(item, _)| item).collect()
}
