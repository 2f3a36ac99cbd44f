//! Row 14: whether bytes of the right length are a state of the table.

use crate::differ::all_differ;
use crate::state::{Entry, Sets, State, BACKING, BOARD, HASH, MOST_ENTRIES};
use crate::table::Table;
use std::mem::{offset_of, size_of, size_of_val};

pub fn is_state(table: &Table, bytes: &[u8]) -> bool {
    let state = State::of(bytes);
    state.count as usize <= MOST_ENTRIES
        && numbers_fit(table, state)
        && bag_fits(table, state, bytes)
        && sets_fit(table, state, bytes)
}

/// c <= p <= P and a flag of 0 or 1; all 0 for a peer above n.
fn numbers_fit(table: &Table, state: &State) -> bool {
    let mut good = true;
    for j in 0..16 {
        let most = if j < table.n as usize { table.periods } else { 0 };
        let flag = (j < table.n as usize) as u8;
        let (p, c) = (state.open[j], state.next[j]);
        good &= p <= most && c <= p && state.down[j] <= flag;
    }
    good
}

/// Entries in range, no two the same, and then only 0.
fn bag_fits(table: &Table, state: &State, bytes: &[u8]) -> bool {
    let entries = state.entries();
    let end = offset_of!(State, bag) + size_of_val(entries);
    let hash = |e: usize| {
        let Entry { kind, signer, period, board } = entries[e];
        board ^ u64::from(u32::from_le_bytes([kind, signer, period, 0])) << 40
    };
    entries.iter().all(|entry| entry_fits(table, *entry))
        && all_differ::<512>(entries.len(), hash, |e, f| entries[e] == entries[f])
        && any(&bytes[end..]) == 0
}

fn entry_fits(table: &Table, entry: Entry) -> bool {
    let signer = match entry.kind {
        HASH | BACKING => entry.signer.wrapping_sub(1) < table.n,
        BOARD => entry.signer == 0,
        _ => false,
    };
    signer && entry.period < table.periods && entry.board & !first(table.m) == 0
}

/// Every set has only what is of the table.
fn sets_fit(table: &Table, state: &State, bytes: &[u8]) -> bool {
    let (n, periods) = (table.n as usize, table.periods as usize);
    let [signed, shared, receipted, held, databases, heard, open] = STARTS;
    let (mut seats, mut cells, mut heards) = ([0; 128], [0; 64], [0; 32]);
    let mut others = gather(&bytes[signed..shared], periods, &mut seats)
        | gather(&bytes[shared..receipted], periods, &mut seats)
        | gather(&bytes[receipted..held], 1, &mut cells)
        | gather(&bytes[held..databases], n, &mut cells)
        | gather(&bytes[heard..open], n, &mut heards);
    let (used, unused) = bytes[databases..heard].split_at(size_of::<Sets>() * n);
    for database in used.as_chunks::<{ size_of::<Sets>() }>().0 {
        others |= gather(database, periods, &mut seats);
    }
    others | any(unused) == 0
        && state.posted & !first(table.m) == 0
        && seats == and(seats, of_seats(table))
        && cells == and(cells, of_cells(table))
        && heards == and(heards, of_hashes(state))
}

/// Where the sets stand that are rows, and where the last of them ends.
const STARTS: [usize; 7] = [
    offset_of!(State, signed),
    offset_of!(State, shared),
    offset_of!(State, receipted),
    offset_of!(State, held),
    offset_of!(State, databases),
    offset_of!(State, heard),
    offset_of!(State, open),
];

/// Adds the bits of the first `used` rows to a row, and gives those of the
/// others.
pub fn gather<const N: usize>(bytes: &[u8], used: usize, sum: &mut [u8; N]) -> u8 {
    let (rows, others) = bytes.split_at(used * N);
    for row in rows.as_chunks::<N>().0 {
        for k in 0..N {
            sum[k] |= row[k];
        }
    }
    any(others)
}

pub fn and<const N: usize>(row: [u8; N], mask: [u8; N]) -> [u8; N] {
    std::array::from_fn(|k| row[k] & mask[k])
}

/// The bits that are 1 in any of the bytes.
pub fn any(bytes: &[u8]) -> u8 {
    bytes.iter().fold(0, |sum, byte| sum | byte)
}

/// The first n of 64 bits.
pub fn first(n: u8) -> u64 {
    u64::MAX.checked_shr(64 - n as u32).unwrap_or(0)
}

/// The items of the table, by period.
pub fn of_cells(table: &Table) -> [u8; 64] {
    let mut mask = [0; 64];
    for row in &mut mask.as_chunks_mut::<8>().0[..table.periods as usize] {
        *row = first(table.m).to_le_bytes();
    }
    mask
}

/// The peers of the table, by item.
pub fn of_seats(table: &Table) -> [u8; 128] {
    let mut mask = [0; 128];
    for set in &mut mask.as_chunks_mut::<2>().0[..table.m as usize] {
        *set = (first(table.n) as u16).to_le_bytes();
    }
    mask
}

/// The hash entries of the bag.
fn of_hashes(state: &State) -> [u8; 32] {
    let mut mask = [0; 32];
    for (e, entry) in state.entries().iter().enumerate() {
        mask[e / 8] |= ((entry.kind == HASH) as u8) << (e % 8);
    }
    mask
}
