//! A step and its 13 bytes: op, peer, other, period, item (also entry
//! number), board (8 bytes, high first).

use crate::state::Board;
use crate::Refusal;

pub const STEP_LENGTH: usize = 13;

/// A step with the fields named after its op. A board is a set of bits here:
/// bit i, worth 2^i, is item i.
#[derive(Clone, Copy, Debug, PartialEq, Eq)]
pub enum Step {
    Post { item: usize },
    Hand { peer: usize, item: usize },
    Sign { peer: usize, item: usize },
    Take { peer: usize, other: usize, period: usize, item: usize },
    Share { peer: usize, item: usize },
    Receipt { period: usize, item: usize },
    Close { peer: usize },
    Fetch { peer: usize, other: usize, period: usize },
    Hash { peer: usize, period: usize },
    Hear { peer: usize, entry: usize },
    Back { peer: usize },
    Publish { entry: usize },
    FalseSignature { peer: usize, period: usize, item: usize },
    FalseShare { peer: usize, period: usize, item: usize },
    FalseHash { peer: usize, period: usize, board: u64 },
    FalseBacking { peer: usize, period: usize, board: u64 },
    Down { peer: usize },
    Up { peer: usize },
    Clear { period: usize },
}

/// 5: not 13 bytes, op not 1..19, unused field not 0.
pub fn read_step(bytes: &[u8]) -> Result<Step, Refusal> {
    if bytes.len() != STEP_LENGTH {
        return Err(Refusal::Form);
    }
    let [peer, other, period, item] = [1, 2, 3, 4].map(|at| bytes[at] as usize);
    let board = bytes[5..].iter().fold(0, |sum, byte| 256 * sum + *byte as u64);
    let step = match bytes[0] {
        1 => Step::Post { item },
        2 => Step::Hand { peer, item },
        3 => Step::Sign { peer, item },
        4 => Step::Take { peer, other, period, item },
        5 => Step::Share { peer, item },
        6 => Step::Receipt { period, item },
        7 => Step::Close { peer },
        8 => Step::Fetch { peer, other, period },
        9 => Step::Hash { peer, period },
        10 => Step::Hear { peer, entry: item },
        11 => Step::Back { peer },
        12 => Step::Publish { entry: item },
        13 => Step::FalseSignature { peer, period, item },
        14 => Step::FalseShare { peer, period, item },
        15 => Step::FalseHash { peer, period, board },
        16 => Step::FalseBacking { peer, period, board },
        17 => Step::Down { peer },
        18 => Step::Up { peer },
        19 => Step::Clear { period },
        _ => return Err(Refusal::Form),
    };
    // A step that differs from its own bytes had an unused field that is not 0.
    if write_step(step) == bytes {
        Ok(step)
    } else {
        Err(Refusal::Form)
    }
}

/// The 13 bytes of a step. Fields not named after the op are 0.
pub fn write_step(step: Step) -> [u8; STEP_LENGTH] {
    match step {
        Step::Post { item } => layout(1, 0, 0, 0, item, 0),
        Step::Hand { peer, item } => layout(2, peer, 0, 0, item, 0),
        Step::Sign { peer, item } => layout(3, peer, 0, 0, item, 0),
        Step::Take { peer, other, period, item } => layout(4, peer, other, period, item, 0),
        Step::Share { peer, item } => layout(5, peer, 0, 0, item, 0),
        Step::Receipt { period, item } => layout(6, 0, 0, period, item, 0),
        Step::Close { peer } => layout(7, peer, 0, 0, 0, 0),
        Step::Fetch { peer, other, period } => layout(8, peer, other, period, 0, 0),
        Step::Hash { peer, period } => layout(9, peer, 0, period, 0, 0),
        Step::Hear { peer, entry } => layout(10, peer, 0, 0, entry, 0),
        Step::Back { peer } => layout(11, peer, 0, 0, 0, 0),
        Step::Publish { entry } => layout(12, 0, 0, 0, entry, 0),
        Step::FalseSignature { peer, period, item } => layout(13, peer, 0, period, item, 0),
        Step::FalseShare { peer, period, item } => layout(14, peer, 0, period, item, 0),
        Step::FalseHash { peer, period, board } => layout(15, peer, 0, period, 0, board),
        Step::FalseBacking { peer, period, board } => layout(16, peer, 0, period, 0, board),
        Step::Down { peer } => layout(17, peer, 0, 0, 0, 0),
        Step::Up { peer } => layout(18, peer, 0, 0, 0, 0),
        Step::Clear { period } => layout(19, 0, 0, period, 0, 0),
    }
}

/// The six fields as bytes.
fn layout(
    op: u8,
    peer: usize,
    other: usize,
    period: usize,
    item: usize,
    board: u64,
) -> [u8; STEP_LENGTH] {
    let mut bytes = [0; STEP_LENGTH];
    bytes[0] = op;
    bytes[1] = peer as u8;
    bytes[2] = other as u8;
    bytes[3] = period as u8;
    bytes[4] = item as u8;
    bytes[5..].copy_from_slice(&board.to_be_bytes());
    bytes
}

/// A set of items as bits.
pub fn bits(items: &Board) -> u64 {
    items.iter().fold(0, |sum, i| sum | 1 << i)
}
