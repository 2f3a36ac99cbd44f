//! The bytes of a peer's part, 3,717: bit k of a byte is worth 2^k, and numbers of several
//! bytes have their low byte first. Which bytes are no part of a table: 14.

use crate::field::message::Row;
use crate::field::part::{Hash, Part, MOST_HEARD};
use crate::table::{Table, MOST_ITEMS, MOST_PERIODS};

// Where each thing begins.
pub const HELD: usize = 0;
pub const GAVE: usize = 64;
pub const DATABASE: usize = 128;
pub const OPEN: usize = 1_152;
pub const NEXT: usize = 1_153;
pub const DOWN: usize = 1_154;
pub const COUNT: usize = 1_155;
pub const HEARD: usize = 1_157;
pub const LENGTH: usize = 3_717;

/// The bytes of a heard hash, and of a period's sets in a database.
pub const HASH_LENGTH: usize = 10;
const ROW_LENGTH: usize = 2 * MOST_ITEMS;

/// Why bytes are no state: each is 14.
#[derive(Clone, Copy, Debug, PartialEq, Eq, PartialOrd, Ord)]
pub enum Unfit {
    Length,
    /// A period or an item out of range, of what is held or of the shares given.
    Held,
    Gave,
    /// A period, an item or a signer out of range.
    Database,
    /// p above P, c above p, a flag above 1.
    Open,
    Next,
    Flag,
    /// More than 256 hashes.
    Count,
    /// Of a hash: no signer, one above n; a period of P or above; a board bit of m or
    /// above.
    NoSigner,
    Signer,
    Period,
    Board,
    /// Two hashes the same.
    Twin,
    /// A byte after the last hash that is not 0.
    Rest,
}

pub const UNFIT: [Unfit; 14] = [
    Unfit::Length,
    Unfit::Held,
    Unfit::Gave,
    Unfit::Database,
    Unfit::Open,
    Unfit::Next,
    Unfit::Flag,
    Unfit::Count,
    Unfit::NoSigner,
    Unfit::Signer,
    Unfit::Period,
    Unfit::Board,
    Unfit::Twin,
    Unfit::Rest,
];

pub fn write_part(part: &Part) -> Vec<u8> {
    let sets = |sets: &[u64]| sets.iter().flat_map(|set| set.to_le_bytes()).collect::<Vec<u8>>();
    let database = part.database.iter().flatten().flat_map(|set| set.to_le_bytes());
    let numbers = [part.p as u8, part.c as u8, part.down as u8];
    let mut bytes = [sets(&part.held), sets(&part.gave), database.collect()].concat();
    bytes.extend(numbers);
    bytes.extend((part.heard.len() as u16).to_le_bytes());
    bytes.extend(part.heard.iter().flat_map(write_hash));
    bytes.resize(LENGTH, 0);
    bytes
}

/// Signer, period, board.
fn write_hash(hash: &Hash) -> Vec<u8> {
    [&[hash.signer as u8, hash.period as u8], &hash.board.to_le_bytes()[..]].concat()
}

/// The part that bytes say; or the first reason why they are no state of the table.
pub fn read_part(table: &Table, bytes: &[u8]) -> Result<Part, Unfit> {
    refuse(bytes.len() != LENGTH, Unfit::Length)?;
    let held = read_sets(&bytes[HELD..GAVE]);
    refuse(!held.iter().enumerate().all(|(p, set)| in_range(table, p, *set)), Unfit::Held)?;
    let gave = read_sets(&bytes[GAVE..DATABASE]);
    refuse(!gave.iter().enumerate().all(|(p, set)| in_range(table, p, *set)), Unfit::Gave)?;
    let database = read_database(table, &bytes[DATABASE..OPEN])?;
    let [p, c] = [OPEN, NEXT].map(|at| bytes[at] as usize);
    refuse(p > table.periods, Unfit::Open)?;
    refuse(c > p, Unfit::Next)?;
    refuse(bytes[DOWN] > 1, Unfit::Flag)?;
    let heard = read_heard(table, &bytes[COUNT..])?;
    Ok(Part { down: bytes[DOWN] == 1, held, gave, database, p, c, heard })
}

fn refuse(bad: bool, unfit: Unfit) -> Result<(), Unfit> {
    if bad {
        Err(unfit)
    } else {
        Ok(())
    }
}

/// A set of items for each period: bit 64 p + i.
fn read_sets(bytes: &[u8]) -> [u64; MOST_PERIODS] {
    let mut sets = [0; MOST_PERIODS];
    for bit in (0..64 * MOST_PERIODS).filter(|bit| bytes[bit / 8] >> (bit % 8) & 1 == 1) {
        sets[bit / 64] |= 1 << (bit % 64);
    }
    sets
}

/// Whether a set of items is one of this period: without an item of m or above, and
/// empty if the table has no such period.
fn in_range(table: &Table, period: usize, set: u64) -> bool {
    set == 0 || period < table.periods && (table.m()..MOST_ITEMS).all(|i| set >> i & 1 == 0)
}

/// A set of signers for each period and item: bit (64 p + i) 16 + k - 1 for signer k.
fn read_database(table: &Table, bytes: &[u8]) -> Result<[Row; MOST_PERIODS], Unfit> {
    let mut database = [[0; MOST_ITEMS]; MOST_PERIODS];
    for (p, row) in bytes.chunks(ROW_LENGTH).enumerate() {
        for (i, set) in row.chunks(2).enumerate() {
            let set = u16::from_le_bytes([set[0], set[1]]);
            let signers_good = (table.n..16).all(|k| set >> k & 1 == 0);
            let good = set == 0 || p < table.periods && i < table.m() && signers_good;
            refuse(!good, Unfit::Database)?;
            database[p][i] = set;
        }
    }
    Ok(database)
}

/// The number of hashes, the hashes, and then only 0.
fn read_heard(table: &Table, bytes: &[u8]) -> Result<Vec<Hash>, Unfit> {
    let count = u16::from_le_bytes([bytes[0], bytes[1]]) as usize;
    refuse(count > MOST_HEARD, Unfit::Count)?;
    let (told, rest) = bytes[2..].split_at(HASH_LENGTH * count);
    let mut heard: Vec<Hash> = Vec::new();
    for bytes in told.chunks(HASH_LENGTH) {
        let hash = read_hash(table, bytes)?;
        refuse(heard.contains(&hash), Unfit::Twin)?;
        heard.push(hash);
    }
    refuse(rest.iter().any(|byte| *byte != 0), Unfit::Rest)?;
    Ok(heard)
}

fn read_hash(table: &Table, bytes: &[u8]) -> Result<Hash, Unfit> {
    let board = bytes[2..].iter().rev().fold(0, |sum, byte| 256 * sum + *byte as u64);
    let hash = Hash { signer: bytes[0] as usize, period: bytes[1] as usize, board };
    refuse(hash.signer == 0, Unfit::NoSigner)?;
    refuse(hash.signer > table.n, Unfit::Signer)?;
    refuse(hash.period >= table.periods, Unfit::Period)?;
    refuse((table.m()..MOST_ITEMS).any(|i| board >> i & 1 == 1), Unfit::Board)?;
    Ok(hash)
}
