//! Helpers of the box's tests: a box on a table, and messages in short.

use super::{audit, cancellation, table_bytes, vote};
use reference::field::{field_message, field_step};

/// Four peers, t = 3, peer 4 dishonest, two periods; items 0 and 1 clash.
pub fn four() -> Vec<u8> {
    let items = [vote(7, &[0]), vote(7, &[1]), audit(8), cancellation(7)];
    table_bytes(4, 3, &[1, 2, 3], 2, &items)
}

/// The box of peer 1 on a table.
pub struct Field {
    pub table: Vec<u8>,
    pub state: Vec<u8>,
}

/// The first bytes of 13, and zeros; or all that are given, if they are more.
pub fn filled(bytes: &[u8]) -> Vec<u8> {
    let mut filled = bytes.to_vec();
    filled.resize(bytes.len().max(13), 0);
    filled
}

/// A fetch for peer j from another, with some sets by item.
pub fn fetched(j: u8, other: u8, period: u8, sets: &[(usize, u16)]) -> Vec<u8> {
    let mut bytes = vec![8, j, other, period];
    bytes.resize(141, 0);
    for (item, set) in sets {
        bytes[13 + 2 * item..15 + 2 * item].copy_from_slice(&set.to_be_bytes());
    }
    bytes
}

/// A hash that reaches peer 1.
pub fn heard(signer: u8, period: u8, board: u64) -> Vec<u8> {
    [&[10, 1, signer, period, 0], &board.to_be_bytes()[..]].concat()
}

impl Field {
    pub fn on(table: Vec<u8>) -> Field {
        Field { table, state: vec![0; 3_717] }
    }

    /// The answer to a message. A refused one alters nothing.
    pub fn message(&mut self, bytes: &[u8]) -> u8 {
        let before = self.state.clone();
        let answer = field_message(&self.table, 1, &mut self.state, &filled(bytes));
        assert!(answer == 0 || self.state == before, "refused, and yet altered");
        answer
    }

    /// The answer to a step, and what is sent, if it is taken. A refused one alters
    /// neither state nor output.
    pub fn step(&mut self, bytes: &[u8]) -> (u8, Option<[u8; 13]>) {
        let (before, mut sent) = (self.state.clone(), [0xEE; 13]);
        let answer = field_step(&self.table, 1, &mut self.state, &filled(bytes), &mut sent);
        if answer == 0 {
            return (0, Some(sent));
        }
        assert!(self.state == before && sent == [0xEE; 13], "refused, and yet altered");
        (answer, None)
    }

    /// A step that is taken.
    pub fn done(&mut self, bytes: &[u8]) {
        assert_eq!(self.step(bytes).0, 0, "{bytes:?}");
    }

    /// These peers' signatures on an item are taken.
    pub fn taken(&mut self, period: u8, item: u8, signers: &[u8]) {
        for signer in signers {
            assert_eq!(self.message(&[4, 1, *signer, period, item]), 0);
        }
    }

    /// The places of the state's bytes that are not 0, and these bytes.
    pub fn not_zero(&self) -> Vec<(usize, u8)> {
        let all = self.state.iter().copied().enumerate();
        all.filter(|(_, byte)| *byte != 0).collect()
    }
}
