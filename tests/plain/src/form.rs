//! The 13 bytes of a step.

/// A step's fields; `item` is also the entry number.
pub struct Fields {
    pub op: u8,
    pub peer: u8,
    pub other: u8,
    pub period: u8,
    pub item: u8,
    pub board: u64,
}

pub const PEER: u64 = 0xFF << 8;
pub const OTHER: u64 = 0xFF << 16;
pub const PERIOD: u64 = 0xFF << 24;
pub const ITEM: u64 = 0xFF << 32;
const SMALL: u64 = PEER | OTHER | PERIOD | ITEM;
pub const BOARD: u64 = 0xFF << 40;

/// For each op from 1 on the bytes that it names.
const NAMED: [u64; 19] = [
    ITEM,
    PEER | ITEM,
    PEER | ITEM,
    PEER | OTHER | PERIOD | ITEM,
    PEER | ITEM,
    PERIOD | ITEM,
    PEER,
    PEER | OTHER | PERIOD,
    PEER | PERIOD,
    PEER | ITEM,
    PEER,
    ITEM,
    PEER | PERIOD | ITEM,
    PEER | PERIOD | ITEM,
    PEER | PERIOD | BOARD,
    PEER | PERIOD | BOARD,
    PEER,
    PEER,
    PERIOD,
];

/// The fields, unless the form is wrong (5).
pub fn read(bytes: &[u8]) -> Option<Fields> {
    let bytes: &[u8; 13] = bytes.try_into().ok()?;
    read_named(bytes, *NAMED.get(bytes[0].wrapping_sub(1) as usize)?)
}

/// The fields, of which those that are not named must be 0.
pub fn read_named(bytes: &[u8; 13], named: u64) -> Option<Fields> {
    let [op, peer, other, period, item, ..] = *bytes;
    let front = u64::from_le_bytes(bytes[..8].try_into().unwrap());
    let board = u64::from_be_bytes(bytes[5..].try_into().unwrap());
    if front & SMALL & !named != 0 || board != 0 && named & BOARD == 0 {
        return None;
    }
    Some(Fields { op, peer, other, period, item, board })
}
