//! The state's bytes as docs/STATE.md has them: written from the reference's
//! state, and read back.

use reference::form::bits;
use reference::state::{Board, Entry, State};
use reference::table::Table;

pub const LENGTH: usize = 22_906;

// Where each part begins.
pub const POSTED: usize = 0;
pub const SIGNED: usize = 8;
pub const SHARED: usize = 1_032;
pub const RECEIPTED: usize = 2_056;
pub const HELD: usize = 2_120;
pub const DATABASES: usize = 3_144;
pub const HEARD: usize = 19_528;
pub const OPEN: usize = 20_040;
pub const NEXT: usize = 20_056;
pub const DOWN: usize = 20_072;
pub const COUNT: usize = 20_088;
pub const ENTRIES: usize = 20_090;
pub const ENTRY_LENGTH: usize = 11;

pub fn encode(state: &State) -> Vec<u8> {
    let mut bytes = vec![0; LENGTH];
    for item in &state.posted {
        set(&mut bytes, POSTED, *item);
    }
    for (k, p, i) in &state.signatures {
        set(&mut bytes, SIGNED, (64 * p + i) * 16 + k - 1);
    }
    for (k, p, i) in &state.shares {
        set(&mut bytes, SHARED, (64 * p + i) * 16 + k - 1);
    }
    for (p, i) in &state.receipts {
        set(&mut bytes, RECEIPTED, 64 * p + i);
    }
    for j in 1..=state.peers.len() {
        encode_peer(&mut bytes, state, j);
    }
    bytes[COUNT..ENTRIES].copy_from_slice(&(state.bag.len() as u16).to_le_bytes());
    for (e, entry) in state.bag.iter().enumerate() {
        let at = ENTRIES + ENTRY_LENGTH * e;
        bytes[at..at + ENTRY_LENGTH].copy_from_slice(&encode_entry(entry));
    }
    bytes
}

fn encode_peer(bytes: &mut [u8], state: &State, j: usize) {
    let peer = state.peer(j);
    for (p, i) in &peer.held {
        set(bytes, HELD, (8 * (j - 1) + p) * 64 + i);
    }
    for ((p, i), signers) in &peer.database {
        for k in signers {
            set(bytes, DATABASES, ((8 * (j - 1) + p) * 64 + i) * 16 + k - 1);
        }
    }
    for e in &peer.heard {
        set(bytes, HEARD, 256 * (j - 1) + e);
    }
    bytes[OPEN + j - 1] = peer.p as u8;
    bytes[NEXT + j - 1] = peer.c as u8;
    bytes[DOWN + j - 1] = !peer.up as u8;
}

fn encode_entry(entry: &Entry) -> [u8; ENTRY_LENGTH] {
    let (kind, signer, period, board) = match entry {
        Entry::Hash { signer, period, board } => (1, *signer, *period, board),
        Entry::Backing { signer, period, board } => (2, *signer, *period, board),
        Entry::Board { period, board } => (3, 0, *period, board),
    };
    let mut bytes = [kind, signer as u8, period as u8, 0, 0, 0, 0, 0, 0, 0, 0];
    bytes[3..].copy_from_slice(&bits(board).to_le_bytes());
    bytes
}

fn set(bytes: &mut [u8], from: usize, bit: usize) {
    bytes[from + bit / 8] |= 1 << (bit % 8);
}

/// The numbers of the bits that are 1 in a part.
pub fn ones(bytes: &[u8], from: usize, to: usize) -> Vec<usize> {
    let places = (from..to).filter(|at| bytes[*at] != 0);
    let bits = places.flat_map(|at| (0..8).map(move |k| (at, k)));
    bits.filter(|(at, k)| bytes[*at] >> k & 1 == 1).map(|(at, k)| 8 * (at - from) + k).collect()
}

/// The number of entries that the bytes give.
pub fn count(bytes: &[u8]) -> usize {
    u16::from_le_bytes([bytes[COUNT], bytes[COUNT + 1]]) as usize
}

/// The bytes of entry e.
pub fn entry(bytes: &[u8], e: usize) -> &[u8] {
    &bytes[ENTRIES + ENTRY_LENGTH * e..][..ENTRY_LENGTH]
}

/// The board of an entry, as a set of bits.
pub fn board_bits(entry: &[u8]) -> u64 {
    u64::from_le_bytes(entry[3..].try_into().unwrap())
}

/// The state that bytes say, if row 14 lets them pass.
pub fn decode(table: &Table, bytes: &[u8]) -> State {
    let triple = |b: usize| (b % 16 + 1, b / 1024, b / 16 % 64);
    let mut state = State::fresh(table);
    state.posted = ones(bytes, POSTED, SIGNED).into_iter().collect();
    state.signatures = ones(bytes, SIGNED, SHARED).into_iter().map(triple).collect();
    state.shares = ones(bytes, SHARED, RECEIPTED).into_iter().map(triple).collect();
    state.receipts = ones(bytes, RECEIPTED, HELD).into_iter().map(|b| (b / 64, b % 64)).collect();
    for b in ones(bytes, HELD, DATABASES) {
        state.peers[b / 512].held.insert((b / 64 % 8, b % 64));
    }
    for b in ones(bytes, DATABASES, HEARD) {
        state.peers[b / 8192].record(b % 16 + 1, b / 1024 % 8, b / 16 % 64);
    }
    for b in ones(bytes, HEARD, OPEN) {
        state.peers[b / 256].heard.insert(b % 256);
    }
    for (k, peer) in state.peers.iter_mut().enumerate() {
        peer.p = bytes[OPEN + k] as usize;
        peer.c = bytes[NEXT + k] as usize;
        peer.up = bytes[DOWN + k] == 0;
    }
    state.bag = (0..count(bytes)).map(|e| decode_entry(entry(bytes, e))).collect();
    state
}

fn decode_entry(entry: &[u8]) -> Entry {
    let (signer, period) = (entry[1] as usize, entry[2] as usize);
    let board: Board = (0..64).filter(|i| board_bits(entry) >> i & 1 == 1).collect();
    match entry[0] {
        1 => Entry::Hash { signer, period, board },
        2 => Entry::Backing { signer, period, board },
        _ => Entry::Board { period, board },
    }
}
