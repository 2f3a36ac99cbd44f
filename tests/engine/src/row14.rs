//! Which bytes are a state on a table: document 01's row 14, with the places
//! from docs/STATE.md.

use crate::layout::*;
use reference::table::Table;

/// Whether row 14 lets the bytes pass.
pub fn is_state(table: &Table, bytes: &[u8]) -> bool {
    bytes.len() == LENGTH
        && outside_in_range(table, bytes)
        && peers_in_range(table, bytes)
        && (1..=16).all(|j| numbers_in_range(table, bytes, j))
        && bag_in_range(table, bytes)
        && heard_are_hashes(table, bytes)
}

/// Posted items, signatures, shares and receipts: peers 1 to n, periods below
/// P, items below m.
fn outside_in_range(table: &Table, bytes: &[u8]) -> bool {
    let pair = |b: usize| b / 64 < table.periods && b % 64 < table.m();
    let triple = |b: usize| b % 16 < table.n && pair(b / 16);
    ones(bytes, POSTED, SIGNED).into_iter().all(|i| i < table.m())
        && ones(bytes, SIGNED, SHARED).into_iter().all(triple)
        && ones(bytes, SHARED, RECEIPTED).into_iter().all(triple)
        && ones(bytes, RECEIPTED, HELD).into_iter().all(pair)
}

/// Held items and databases, likewise.
fn peers_in_range(table: &Table, bytes: &[u8]) -> bool {
    let pair = |b: usize| b / 64 < table.periods && b % 64 < table.m();
    let held = |b: usize| b / 512 < table.n && pair(b % 512);
    ones(bytes, HELD, DATABASES).into_iter().all(held)
        && ones(bytes, DATABASES, HEARD).into_iter().all(|b| b % 16 < table.n && held(b / 16))
}

/// c <= p <= P and a flag of 0 or 1; all 0 for a peer above n.
fn numbers_in_range(table: &Table, bytes: &[u8], j: usize) -> bool {
    let [p, c, down] = [OPEN, NEXT, DOWN].map(|from| bytes[from + j - 1] as usize);
    if j > table.n {
        p == 0 && c == 0 && down == 0
    } else {
        p <= table.periods && c <= p && down <= 1
    }
}

/// At most 256 entries, each in range and no two the same; then only 0.
fn bag_in_range(table: &Table, bytes: &[u8]) -> bool {
    let count = count(bytes);
    count <= 256
        && (0..count).all(|e| entry_in_range(table, entry(bytes, e)))
        && (0..count).all(|e| (0..e).all(|f| entry(bytes, e) != entry(bytes, f)))
        && bytes[ENTRIES + ENTRY_LENGTH * count..].iter().all(|byte| *byte == 0)
}

fn entry_in_range(table: &Table, entry: &[u8]) -> bool {
    let signer = entry[1] as usize;
    let signer_good = match entry[0] {
        1 | 2 => (1..=table.n).contains(&signer),
        3 => signer == 0,
        _ => false,
    };
    let board_good = (table.m()..64).all(|i| board_bits(entry) >> i & 1 == 0);
    signer_good && (entry[2] as usize) < table.periods && board_good
}

/// What a peer heard is the number of a hash entry.
fn heard_are_hashes(table: &Table, bytes: &[u8]) -> bool {
    let is_hash = |e: usize| e < count(bytes) && entry(bytes, e)[0] == 1;
    ones(bytes, HEARD, OPEN).into_iter().all(|b| b / 256 < table.n && is_hash(b % 256))
}
