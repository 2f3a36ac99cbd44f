//! What a board's bytes have outside, by peers' names, as a peer sends it; and a peer's own
//! part of them, as a box lays it out. The places are those of docs/STATE.md.

use crate::layout::*;
use reference::field::bytes::{self as boxed, HASH_LENGTH};
use reference::field::message::{write_sent, Sent};
use reference::form::STEP_LENGTH;

/// What a peer sent: a signature, a share, a hash or a backing.
pub type Fact = [u8; STEP_LENGTH];

/// What is outside in the bytes `after` and not in those `before`.
pub fn entered(before: &[u8], after: &[u8]) -> Vec<Fact> {
    let bits = |from: usize, to: usize| {
        let new: Vec<u8> = (from..to).map(|at| after[at] & !before[at]).collect();
        ones(&new, 0, new.len())
    };
    let named = |b: usize| (b % 16 + 1, b / 1024, b / 16 % 64);
    let mut facts = Vec::new();
    for (peer, period, item) in bits(SIGNED, SHARED).into_iter().map(named) {
        facts.push(write_sent(peer, Sent::Signature { period, item }));
    }
    for (peer, period, item) in bits(SHARED, RECEIPTED).into_iter().map(named) {
        facts.push(write_sent(peer, Sent::Share { period, item }));
    }
    if before[COUNT..] != after[COUNT..] {
        let old: Vec<&[u8]> = (0..count(before)).map(|e| entry(before, e)).collect();
        let all = (0..count(after)).map(|e| entry(after, e));
        facts.extend(all.filter(|entry| !old.contains(entry)).filter_map(fact_of));
    }
    facts
}

/// A hash or a backing.
fn fact_of(entry: &[u8]) -> Option<Fact> {
    let (peer, period, board) = (entry[1] as usize, entry[2] as usize, board_bits(entry));
    match entry[0] {
        1 => Some(write_sent(peer, Sent::Hash { period, board })),
        2 => Some(write_sent(peer, Sent::Backing { period, board })),
        _ => None,
    }
}

/// Whether it is outside.
pub fn is_outside(bytes: &[u8], fact: &Fact) -> bool {
    let [op, peer, _, period, item] = [0, 1, 2, 3, 4].map(|at| fact[at] as usize);
    let bit = (64 * period + item) * 16 + peer - 1;
    let has = |from: usize| bytes[from + bit / 8] >> (bit % 8) & 1 == 1;
    match op {
        3 => has(SIGNED),
        5 => has(SHARED),
        _ => (0..count(bytes)).any(|e| fact_of(entry(bytes, e)) == Some(*fact)),
    }
}

/// Peer j's part, all but what it heard: held, shares given, database, p, c, down.
pub fn part_of(bytes: &[u8], j: usize) -> Vec<u8> {
    let held = &bytes[HELD + 64 * (j - 1)..][..64];
    let database = &bytes[DATABASES + 1_024 * (j - 1)..][..1_024];
    let mut gave = [0; 64];
    for b in ones(bytes, SHARED, RECEIPTED).into_iter().filter(|b| b % 16 + 1 == j) {
        gave[b / 16 / 8] |= 1 << (b / 16 % 8);
    }
    let numbers = [OPEN, NEXT, DOWN].map(|from| bytes[from + j - 1]);
    [held, &gave, database, &numbers].concat()
}

/// The hashes that peer j has heard, in order: signer, period and board of each.
pub fn heard_by(bytes: &[u8], j: usize) -> Vec<&[u8]> {
    let numbers = ones(bytes, HEARD + 32 * (j - 1), HEARD + 32 * j);
    let mut heard: Vec<&[u8]> = numbers.into_iter().map(|e| &entry(bytes, e)[1..]).collect();
    heard.sort();
    heard
}

/// The same of a box.
pub fn heard_in(state: &[u8]) -> Vec<&[u8]> {
    let count = u16::from_le_bytes([state[boxed::COUNT], state[boxed::COUNT + 1]]) as usize;
    let mut heard: Vec<&[u8]> = state[boxed::HEARD..].chunks(HASH_LENGTH).take(count).collect();
    heard.sort();
    heard
}

/// Those of the hashes that are of this period or a later one.
pub fn from_period(heard: Vec<&[u8]>, period: u8) -> Vec<&[u8]> {
    heard.into_iter().filter(|hash| hash[1] >= period).collect()
}
