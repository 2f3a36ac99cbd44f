//! The bytes of docs/FIELD.md as a struct without gaps.

use crate::state::{over_bytes, Sets};

pub const SIZE: usize = 3_717;
pub const MOST_HEARD: usize = 256;

#[derive(Clone, Copy, PartialEq, Eq)]
#[repr(C, packed)]
pub struct Hash {
    pub signer: u8,
    pub period: u8,
    pub board: u64,
}

#[repr(C, packed)]
pub struct State {
    pub held: [u64; 8],
    pub shared: [u64; 8],
    pub database: Sets,
    pub open: u8,
    pub next: u8,
    pub down: u8,
    pub count: u16,
    pub hashes: [Hash; MOST_HEARD],
}

over_bytes!(State, SIZE);

impl State {
    /// The hashes that were heard, as they came.
    pub fn heard(&self) -> &[Hash] {
        &self.hashes[..self.count as usize]
    }
}
