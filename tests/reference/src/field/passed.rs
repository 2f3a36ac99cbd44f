//! What a call of the rehearsal passes to a peer, and what the peer sends by it, told
//! from the reference's own state before the call.

use crate::field::message::{write_message, write_sent, Message, Row, Sent};
use crate::field::part::Hash;
use crate::field::{field_message, field_step};
use crate::form::{bits, read_step, Step, STEP_LENGTH};
use crate::state::{Entry, State};
use crate::table::Table;

/// What is passed to a peer, by the function that takes it.
#[derive(Clone, Debug, PartialEq, Eq)]
pub enum Passed {
    /// To `field_message`: it is brought to the peer.
    Message(Vec<u8>),
    /// To `field_step`: the peer does it itself.
    Step(Vec<u8>),
}

impl Passed {
    pub fn bytes(&self) -> &[u8] {
        match self {
            Passed::Message(bytes) | Passed::Step(bytes) => bytes,
        }
    }

    /// Passed on to the independent box: its answer.
    pub fn call(&self, table: &[u8], peer: u8, state: &mut [u8], sent: &mut [u8]) -> u8 {
        match self {
            Passed::Message(bytes) => field_message(table, peer, state, bytes),
            Passed::Step(bytes) => field_step(table, peer, state, bytes, sent),
        }
    }
}

/// What a call passes to the honest peer j; none where the bytes are no step, are not of
/// j, or are barred by something outside j.
pub fn passed(table: &Table, state: &State, j: usize, call: &[u8]) -> Option<Passed> {
    let step = read_step(call).ok()?;
    match step {
        Step::Sign { peer, .. }
        | Step::Share { peer, .. }
        | Step::Close { peer }
        | Step::Hash { peer, .. }
        | Step::Back { peer }
        | Step::Down { peer }
        | Step::Up { peer } => (peer == j).then(|| Passed::Step(call.to_vec())),
        _ => {
            let (peer, message) = message(table, state, step)?;
            (peer == j).then(|| Passed::Message(write_message(j, &message)))
        }
    }
}

/// What a step brings, and to which peer.
fn message(table: &Table, state: &State, step: Step) -> Option<(usize, Message)> {
    match step {
        Step::Hand { peer, item } => {
            state.posted.contains(&item).then_some((peer, Message::Hand { item }))
        }
        Step::Take { peer, other, period, item } => {
            let is_outside = state.signatures.contains(&(other, period, item));
            is_outside.then_some((peer, Message::Take { signer: other, period, item }))
        }
        Step::Fetch { peer, other, period } => {
            let row = lent_row(table, state, other, period)?;
            Some((peer, Message::Fetch { other, period, row }))
        }
        Step::Hear { peer, entry } => match state.bag.get(entry)? {
            Entry::Hash { signer, period, board } => {
                let hash = Hash { signer: *signer, period: *period, board: bits(board) };
                Some((peer, Message::Hear { hash }))
            }
            _ => None,
        },
        _ => None,
    }
}

/// The database of a period that a peer lends: an honest one that is up and has closed
/// the period.
fn lent_row(table: &Table, state: &State, other: usize, period: usize) -> Option<Row> {
    if !table.is_honest(other) {
        return None;
    }
    let peer = state.peer(other);
    if !peer.up || period >= peer.p {
        return None;
    }
    let set = |item| peer.signers(period, item).iter().fold(0, |set, k| set | 1 << (k - 1));
    Some(std::array::from_fn(set))
}

/// What peer j sends with a call that is answered 0: it enters the outside by the call, or
/// is there already.
pub fn sends(table: &Table, state: &State, j: usize, call: &[u8]) -> Option<[u8; STEP_LENGTH]> {
    let (peer, sent) = match read_step(call).ok()? {
        Step::Sign { peer, item } => (peer, Sent::Signature { period: open(state, peer)?, item }),
        Step::Share { peer, item } => (peer, Sent::Share { period: open(state, peer)?, item }),
        Step::Hash { peer, period } => {
            (peer, Sent::Hash { period, board: board(table, state, peer, period)? })
        }
        Step::Back { peer } => {
            let period = state.peers.get(peer.checked_sub(1)?)?.c;
            (peer, Sent::Backing { period, board: board(table, state, peer, period)? })
        }
        _ => return None,
    };
    (peer == j).then(|| write_sent(j, sent))
}

/// p of a peer, if there is such a one.
fn open(state: &State, peer: usize) -> Option<usize> {
    Some(state.peers.get(peer.checked_sub(1)?)?.p)
}

fn board(table: &Table, state: &State, peer: usize, period: usize) -> Option<u64> {
    Some(bits(&state.peers.get(peer.checked_sub(1)?)?.board(table, period)))
}
