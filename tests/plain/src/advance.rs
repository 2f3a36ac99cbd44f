//! The inner step: judged and done on a state that is valid, in place.

use crate::clear::clear;
use crate::form::{read, Fields};
use crate::guards::*;
use crate::state::{Entry, State, BACKING, BOARD, HASH};
use crate::table::Table;
use crate::Done;

/// A step on a valid state. `clashes` gives an item's clash mask.
pub fn advance(
    table: &Table,
    clashes: impl Fn(usize) -> u64,
    state: &mut State,
    bytes: &[u8],
) -> Done {
    let step = read(bytes).ok_or(FORM)?;
    match step.op {
        1 => post(table, state, &step),
        2 => hand(table, clashes, state, &step),
        3 => sign(table, state, &step),
        4 => take(table, state, &step),
        5 => share(table, state, &step),
        6 => receipt(table, state, &step),
        7 => close(table, state, &step),
        8 => fetch(table, state, &step),
        9 => hash(table, state, &step),
        10 => hear(table, state, &step),
        11 => back(table, state, &step),
        12 => publish(table, state, &step),
        13 | 14 => false_mark(table, state, &step),
        15 | 16 => false_entry(table, state, &step),
        17 | 18 => set_down(table, state, &step),
        _ => clear(table, state, &step),
    }
}

fn post(table: &Table, state: &mut State, step: &Fields) -> Done {
    state.posted |= 1 << table.item(step.item)?;
    Ok(())
}

fn hand(table: &Table, clashes: impl Fn(usize) -> u64, state: &mut State, step: &Fields) -> Done {
    let (j, item) = (table.peer(step.peer)?, table.item(step.item)?);
    table.need_honest(j)?;
    state.need_up(j)?;
    let p = state.need_open(table, j)?;
    state.need_posted(1 << item)?;
    let held = state.held[j];
    refuse_if(held.iter().fold(0, |all, set| all | set) & clashes(item) != 0, CLASH)?;
    state.held[j][p] |= 1 << item;
    Ok(())
}

fn sign(table: &Table, state: &mut State, step: &Fields) -> Done {
    let (j, item) = (table.peer(step.peer)?, table.item(step.item)?);
    table.need_honest(j)?;
    state.need_up(j)?;
    let p = state.need_open(table, j)?;
    refuse_if(state.held[j][p] >> item & 1 == 0, UNKNOWN)?;
    state.signed[p][item] |= 1 << j;
    state.databases[j][p][item] |= 1 << j;
    Ok(())
}

fn take(table: &Table, state: &mut State, step: &Fields) -> Done {
    let (j, k) = (table.peer(step.peer)?, table.peer(step.other)?);
    let (period, item) = (table.period(step.period)?, table.item(step.item)?);
    table.need_honest(j)?;
    state.need_up(j)?;
    refuse_if(step.period > state.open[j], PERIOD)?;
    refuse_if(state.signed[period][item] >> k & 1 == 0, UNKNOWN)?;
    state.databases[j][period][item] |= 1 << k;
    Ok(())
}

fn share(table: &Table, state: &mut State, step: &Fields) -> Done {
    let (j, item) = (table.peer(step.peer)?, table.item(step.item)?);
    table.need_honest(j)?;
    state.need_up(j)?;
    let p = state.need_open(table, j)?;
    refuse_if((0..p).any(|q| state.shared[q][item] >> j & 1 == 1), GIVEN)?;
    table.need_threshold(state.databases[j][p][item])?;
    state.shared[p][item] |= 1 << j;
    Ok(())
}

fn receipt(table: &Table, state: &mut State, step: &Fields) -> Done {
    let (period, item) = (table.period(step.period)?, table.item(step.item)?);
    table.need_threshold(state.shared[period][item])?;
    state.receipted[period] |= 1 << item;
    Ok(())
}

fn close(table: &Table, state: &mut State, step: &Fields) -> Done {
    let j = table.peer(step.peer)?;
    table.need_honest(j)?;
    state.need_up(j)?;
    state.need_open(table, j)?;
    state.open[j] += 1;
    Ok(())
}

fn fetch(table: &Table, state: &mut State, step: &Fields) -> Done {
    let (j, k) = (table.peer(step.peer)?, table.peer(step.other)?);
    let period = table.period(step.period)?;
    table.need_honest(j)?;
    table.need_honest(k)?;
    state.need_up(j)?;
    state.need_up(k)?;
    state.need_closed(j, period)?;
    state.need_closed(k, period)?;
    let (mut row, other) = (state.databases[j][period], state.databases[k][period]);
    for i in 0..64 {
        row[i] |= other[i];
    }
    state.databases[j][period] = row;
    Ok(())
}

fn hash(table: &Table, state: &mut State, step: &Fields) -> Done {
    let (j, period) = (table.peer(step.peer)?, table.period(step.period)?);
    table.need_honest(j)?;
    state.need_up(j)?;
    state.need_closed(j, period)?;
    let board = state.board(table, j, period);
    state.enter(Entry { kind: HASH, signer: step.peer, period: step.period, board })
}

fn hear(table: &Table, state: &mut State, step: &Fields) -> Done {
    let j = table.peer(step.peer)?;
    table.need_honest(j)?;
    state.need_up(j)?;
    let heard = state.entry(step.item, HASH)?;
    state.need_closed(j, heard.period as usize)?;
    state.heard[j][step.item as usize / 64] |= 1 << (step.item % 64);
    Ok(())
}

fn back(table: &Table, state: &mut State, step: &Fields) -> Done {
    let j = table.peer(step.peer)?;
    table.need_honest(j)?;
    state.need_up(j)?;
    let period = state.next[j];
    refuse_if(period == state.open[j], PERIOD)?;
    let board = state.board(table, j, period as usize);
    let mut signers = 0;
    for (at, set) in state.heard[j].into_iter().enumerate() {
        let mut left = set;
        while left != 0 {
            let entry = state.bag[64 * at + left.trailing_zeros() as usize];
            let fits = entry.period == period && entry.board == board;
            signers |= (fits as u16) << (entry.signer - 1);
            left &= left - 1;
        }
    }
    table.need_threshold(signers)?;
    state.enter(Entry { kind: BACKING, signer: step.peer, period, board })?;
    state.next[j] += 1;
    Ok(())
}

fn publish(table: &Table, state: &mut State, step: &Fields) -> Done {
    let Entry { period, board, .. } = state.entry(step.item, BACKING)?;
    let mut signers = 0;
    for entry in state.entries() {
        if entry.kind == BACKING && entry.period == period && entry.board == board {
            signers |= 1 << (entry.signer - 1);
        }
    }
    table.need_threshold(signers)?;
    state.enter(Entry { kind: BOARD, signer: 0, period, board })
}

/// 13 false signature, 14 false share.
fn false_mark(table: &Table, state: &mut State, step: &Fields) -> Done {
    let (j, period) = (table.peer(step.peer)?, table.period(step.period)?);
    let item = table.item(step.item)?;
    table.need_dishonest(j)?;
    state.need_posted(1 << item)?;
    if step.op == 13 {
        state.signed[period][item] |= 1 << j;
    } else {
        state.shared[period][item] |= 1 << j;
    }
    Ok(())
}

/// 15 false hash, 16 false backing.
fn false_entry(table: &Table, state: &mut State, step: &Fields) -> Done {
    let j = table.peer(step.peer)?;
    table.period(step.period)?;
    refuse_if(table.m < 64 && step.board >> table.m != 0, NAME)?;
    table.need_dishonest(j)?;
    state.need_posted(step.board)?;
    let kind = if step.op == 15 { HASH } else { BACKING };
    state.enter(Entry { kind, signer: step.peer, period: step.period, board: step.board })
}

/// 17 down, 18 up.
fn set_down(table: &Table, state: &mut State, step: &Fields) -> Done {
    let j = table.peer(step.peer)?;
    table.need_honest(j)?;
    state.down[j] = (step.op == 17) as u8;
    Ok(())
}
