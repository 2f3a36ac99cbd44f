//! The refusals that several ops share, one short function for each.

use crate::state::{Board, State};
use crate::table::Table;
use crate::Refusal;
use std::collections::BTreeSet;

pub type Done = Result<(), Refusal>;

pub fn refuse_if(bad: bool, refusal: Refusal) -> Done {
    if bad {
        Err(refusal)
    } else {
        Ok(())
    }
}

/// 6: a peer (or other) not in 1..n.
pub fn name_peer(table: &Table, peer: usize) -> Done {
    refuse_if(!(1..=table.n).contains(&peer), Refusal::Name)
}

/// 6: a period not below P.
pub fn name_period(table: &Table, period: usize) -> Done {
    refuse_if(period >= table.periods, Refusal::Name)
}

/// 6: an item not below m.
pub fn name_item(table: &Table, item: usize) -> Done {
    refuse_if(item >= table.m(), Refusal::Name)
}

/// 6: a board bit m or above. Else the board as a set of items.
pub fn name_board(table: &Table, bits: u64) -> Result<Board, Refusal> {
    let board: Board = (0..64).filter(|i| bits >> i & 1 == 1).collect();
    for item in &board {
        name_item(table, *item)?;
    }
    Ok(board)
}

/// 7: an honest peer needed.
pub fn need_honest(table: &Table, peer: usize) -> Done {
    refuse_if(!table.is_honest(peer), Refusal::Role)
}

/// 7: a dishonest peer needed.
pub fn need_dishonest(table: &Table, peer: usize) -> Done {
    refuse_if(table.is_honest(peer), Refusal::Role)
}

/// 8: the peer is down.
pub fn need_up(state: &State, peer: usize) -> Done {
    refuse_if(!state.peer(peer).up, Refusal::Down)
}

/// 9: no period open. Else p, the open one.
pub fn need_open(table: &Table, state: &State, peer: usize) -> Result<usize, Refusal> {
    let p = state.peer(peer).p;
    refuse_if(p == table.periods, Refusal::Period)?;
    Ok(p)
}

/// 9: the peer has not closed the period.
pub fn need_closed(state: &State, peer: usize, period: usize) -> Done {
    refuse_if(period >= state.peer(peer).p, Refusal::Period)
}

/// 10: the item is not posted.
pub fn need_posted(state: &State, item: usize) -> Done {
    refuse_if(!state.posted.contains(&item), Refusal::Unknown)
}

/// 12: the peers' weights sum up to less than t.
pub fn need_quorum(table: &Table, peers: &BTreeSet<usize>) -> Done {
    refuse_if(!table.is_quorum(peers), Refusal::Short)
}
