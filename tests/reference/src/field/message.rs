//! The bytes of a message, of a step of the peer's own, and of what the peer sends: 13,
//! as a step of the rehearsal has them, and behind a fetch the database that it brings.

use crate::field::part::Hash;
use crate::form::STEP_LENGTH;
use crate::pairs::two_bytes;
use crate::table::MOST_ITEMS;
use crate::Refusal;

/// A fetch: 13 bytes, and a set of two bytes for each of 64 items.
pub const FETCH_LENGTH: usize = STEP_LENGTH + 2 * MOST_ITEMS;

/// A database of one period, by item: bit k - 1 of a set is signer k.
pub type Row = [u16; MOST_ITEMS];

/// What is brought to the peer.
#[derive(Clone, Debug, PartialEq, Eq)]
pub enum Message {
    Hand { item: usize },
    Take { signer: usize, period: usize, item: usize },
    Fetch { other: usize, period: usize, row: Row },
    Hear { hash: Hash },
}

/// What the peer does itself.
#[derive(Clone, Copy, Debug, PartialEq, Eq)]
pub enum Act {
    Sign { item: usize },
    Share { item: usize },
    Close,
    Hash { period: usize },
    Back,
    Down,
    Up,
}

/// What the peer sends: its signature, its receipt share, its hash, its backing.
#[derive(Clone, Copy, Debug, PartialEq, Eq)]
pub enum Sent {
    Signature { period: usize, item: usize },
    Share { period: usize, item: usize },
    Hash { period: usize, board: u64 },
    Backing { period: usize, board: u64 },
    Nothing,
}

/// The six fields as bytes: op, peer, other, period, item, board (high byte first).
fn fields(op: u8, [peer, other, period, item]: [usize; 4], board: u64) -> [u8; STEP_LENGTH] {
    let mut bytes = [0; STEP_LENGTH];
    bytes[..5].copy_from_slice(&[op, peer as u8, other as u8, period as u8, item as u8]);
    bytes[5..].copy_from_slice(&board.to_be_bytes());
    bytes
}

/// The bytes of what is brought to peer j.
pub fn write_message(j: usize, message: &Message) -> Vec<u8> {
    match message {
        Message::Hand { item } => fields(2, [j, 0, 0, *item], 0).to_vec(),
        Message::Take { signer, period, item } => {
            fields(4, [j, *signer, *period, *item], 0).to_vec()
        }
        Message::Fetch { other, period, row } => {
            let sets = row.iter().flat_map(|set| set.to_be_bytes());
            fields(8, [j, *other, *period, 0], 0).into_iter().chain(sets).collect()
        }
        Message::Hear { hash } => fields(10, [j, hash.signer, hash.period, 0], hash.board).to_vec(),
    }
}

/// The bytes of what peer j does itself.
pub fn write_act(j: usize, act: Act) -> [u8; STEP_LENGTH] {
    match act {
        Act::Sign { item } => fields(3, [j, 0, 0, item], 0),
        Act::Share { item } => fields(5, [j, 0, 0, item], 0),
        Act::Close => fields(7, [j, 0, 0, 0], 0),
        Act::Hash { period } => fields(9, [j, 0, period, 0], 0),
        Act::Back => fields(11, [j, 0, 0, 0], 0),
        Act::Down => fields(17, [j, 0, 0, 0], 0),
        Act::Up => fields(18, [j, 0, 0, 0], 0),
    }
}

/// The bytes of what peer j sends: 13 zeros where it sends nothing.
pub fn write_sent(j: usize, sent: Sent) -> [u8; STEP_LENGTH] {
    match sent {
        Sent::Signature { period, item } => fields(3, [j, 0, period, item], 0),
        Sent::Share { period, item } => fields(5, [j, 0, period, item], 0),
        Sent::Hash { period, board } => fields(9, [j, 0, period, 0], board),
        Sent::Backing { period, board } => fields(11, [j, 0, period, 0], board),
        Sent::Nothing => [0; STEP_LENGTH],
    }
}

/// The peer that bytes name, and what they bring to it. 5: another length, another op,
/// or an unused field that is not 0.
pub fn read_message(bytes: &[u8]) -> Result<(usize, Message), Refusal> {
    let (head, rest) = bytes.split_at_checked(STEP_LENGTH).ok_or(Refusal::Form)?;
    let [peer, other, period, item] = [1, 2, 3, 4].map(|at| head[at] as usize);
    let message = match head[0] {
        2 => Message::Hand { item },
        4 => Message::Take { signer: other, period, item },
        8 => Message::Fetch { other, period, row: read_row(rest)? },
        10 => Message::Hear { hash: Hash { signer: other, period, board: board(head) } },
        _ => return Err(Refusal::Form),
    };
    // What differs from its own bytes had more of them, or an unused field not 0.
    if write_message(peer, &message) == bytes {
        Ok((peer, message))
    } else {
        Err(Refusal::Form)
    }
}

/// The peer that bytes name, and what it does. 5: likewise.
pub fn read_act(bytes: &[u8]) -> Result<(usize, Act), Refusal> {
    if bytes.len() != STEP_LENGTH {
        return Err(Refusal::Form);
    }
    let [peer, period, item] = [1, 3, 4].map(|at| bytes[at] as usize);
    let act = match bytes[0] {
        3 => Act::Sign { item },
        5 => Act::Share { item },
        7 => Act::Close,
        9 => Act::Hash { period },
        11 => Act::Back,
        17 => Act::Down,
        18 => Act::Up,
        _ => return Err(Refusal::Form),
    };
    if write_act(peer, act) == bytes {
        Ok((peer, act))
    } else {
        Err(Refusal::Form)
    }
}

/// The board of 13 bytes, high byte first: bit i is item i.
fn board(head: &[u8]) -> u64 {
    head[5..].iter().fold(0, |sum, byte| 256 * sum + *byte as u64)
}

/// 64 sets of two bytes, high byte first. 5: more or fewer.
fn read_row(bytes: &[u8]) -> Result<Row, Refusal> {
    if bytes.len() != 2 * MOST_ITEMS {
        return Err(Refusal::Form);
    }
    Ok(std::array::from_fn(|item| two_bytes(bytes, 2 * item) as u16))
}
