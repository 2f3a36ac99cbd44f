//! Steps 13 to 16: what a dishonest peer sends.

use crate::refusals::*;
use crate::state::{Board, Entry, State};
use crate::table::Table;
use crate::Refusal;

/// 13 false signature: a dishonest peer's, over a posted item.
pub fn false_signature(table: &Table, state: &mut State, named: Named) -> Done {
    judge_false(table, state, named)?;
    state.signatures.insert(named);
    Ok(())
}

/// 14 false share: likewise.
pub fn false_share(table: &Table, state: &mut State, named: Named) -> Done {
    judge_false(table, state, named)?;
    state.shares.insert(named);
    Ok(())
}

/// A peer, a period and an item.
type Named = (usize, usize, usize);

/// The refusals of 13 and 14.
fn judge_false(table: &Table, state: &State, (peer, period, item): Named) -> Done {
    name_peer(table, peer)?;
    name_period(table, period)?;
    name_item(table, item)?;
    need_dishonest(table, peer)?;
    need_posted(state, item)
}

/// 15 false hash: a dishonest peer's, over posted items only.
pub fn false_hash(table: &Table, state: &mut State, peer: usize, period: usize, bits: u64) -> Done {
    let board = judge_false_board(table, state, peer, period, bits)?;
    state.enter(Entry::Hash { signer: peer, period, board })
}

/// 16 false backing: a dishonest peer's, over posted items only.
pub fn false_backing(
    table: &Table,
    state: &mut State,
    peer: usize,
    period: usize,
    bits: u64,
) -> Done {
    let board = judge_false_board(table, state, peer, period, bits)?;
    state.enter(Entry::Backing { signer: peer, period, board })
}

/// The refusals of 15 and 16, up to 10. Else the board.
fn judge_false_board(
    table: &Table,
    state: &State,
    peer: usize,
    period: usize,
    bits: u64,
) -> Result<Board, Refusal> {
    name_peer(table, peer)?;
    name_period(table, period)?;
    let board = name_board(table, bits)?;
    need_dishonest(table, peer)?;
    for item in &board {
        need_posted(state, *item)?;
    }
    Ok(board)
}
