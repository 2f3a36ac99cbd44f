//! Row 14: whether bytes of the right length are a field peer's state under the
//! table.

use super::state::{Hash, State, MOST_HEARD};
use crate::differ::all_differ;
use crate::table::Table;
use crate::valid::{and, any, first, gather, of_cells, of_seats};
use std::mem::{offset_of, size_of_val};

pub fn is_state(table: &Table, bytes: &[u8]) -> bool {
    let state = State::of(bytes);
    let (p, c) = (state.open, state.next);
    state.count as usize <= MOST_HEARD
        && p <= table.periods
        && c <= p
        && state.down <= 1
        && hashes_fit(table, state, bytes)
        && sets_fit(table, bytes)
}

/// Hashes in range, no two the same, and then only 0.
fn hashes_fit(table: &Table, state: &State, bytes: &[u8]) -> bool {
    let heard = state.heard();
    let end = offset_of!(State, hashes) + size_of_val(heard);
    let key = |e: usize| {
        let Hash { signer, period, board } = heard[e];
        board ^ u64::from(u16::from_le_bytes([signer, period])) << 48
    };
    heard.iter().all(|hash| is_of_table(table, *hash))
        && all_differ::<512>(heard.len(), key, |e, f| heard[e] == heard[f])
        && any(&bytes[end..]) == 0
}

fn is_of_table(table: &Table, hash: Hash) -> bool {
    hash.signer.wrapping_sub(1) < table.n
        && hash.period < table.periods
        && hash.board & !first(table.m) == 0
}

/// Every set has only what is of the table.
fn sets_fit(table: &Table, bytes: &[u8]) -> bool {
    let (mut cells, mut seats) = ([0; 64], [0; 128]);
    let [shared, database, open] =
        [offset_of!(State, shared), offset_of!(State, database), offset_of!(State, open)];
    let others = gather(&bytes[..shared], 1, &mut cells)
        | gather(&bytes[shared..database], 1, &mut cells)
        | gather(&bytes[database..open], table.periods as usize, &mut seats);
    others == 0 && cells == and(cells, of_cells(table)) && seats == and(seats, of_seats(table))
}
