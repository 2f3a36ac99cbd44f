//! The field peer of document 02's P9: one honest peer's part of the rehearsal, the box,
//! on bytes of its own. What is brought to it, what it does itself, and what it sends.
//!
//! - `message`: the bytes of a message, of a step of the peer's own, and of what is sent
//! - `part`: the peer's part, judged and changed
//! - `bytes`: the bytes of that part, or 14
//! - `passed`: what a call of the rehearsal passes to a peer, and what the peer sends by it
//! - `lines`: a rehearsal as one peer meets it, a line for each thing passed

pub mod bytes;
pub mod lines;
pub mod message;
pub mod part;
pub mod passed;

use crate::form::STEP_LENGTH;
use crate::table::read_table;
use crate::Refusal;
use bytes::{read_part, write_part, Unfit, LENGTH};

/// The number 14, which is no `Refusal` of this crate: it is about lent bytes.
pub const STATE: u8 = 14;

impl From<Refusal> for u8 {
    fn from(refusal: Refusal) -> u8 {
        refusal.number()
    }
}

impl From<Unfit> for u8 {
    fn from(_: Unfit) -> u8 {
        STATE
    }
}

/// The length of a state; one of zeros is fresh.
pub fn field_state_length() -> usize {
    LENGTH
}

/// What is brought to the peer: the answer. A refused call alters nothing.
pub fn field_message(table: &[u8], peer: u8, state: &mut [u8], message: &[u8]) -> u8 {
    brought(table, peer, state, message).err().unwrap_or(0)
}

/// 1 to 4, 14, and what the part judges.
fn brought(table: &[u8], peer: u8, state: &mut [u8], message: &[u8]) -> Result<(), u8> {
    let table = read_table(table)?;
    let mut part = read_part(&table, state)?;
    part.message(&table, peer, message)?;
    state.copy_from_slice(&write_part(&part));
    Ok(())
}

/// What the peer does itself, and what it sends by that: the answer. A refused call
/// alters nothing.
pub fn field_step(table: &[u8], peer: u8, state: &mut [u8], step: &[u8], sent: &mut [u8]) -> u8 {
    done(table, peer, state, step, sent).err().unwrap_or(0)
}

/// 1 to 4, 14, also for an output that has not 13 bytes, and what the part judges.
fn done(table: &[u8], peer: u8, state: &mut [u8], step: &[u8], sent: &mut [u8]) -> Result<(), u8> {
    let table = read_table(table)?;
    let mut part = read_part(&table, state)?;
    if sent.len() != STEP_LENGTH {
        return Err(STATE);
    }
    let sends = part.step(&table, peer, step)?;
    state.copy_from_slice(&write_part(&part));
    sent.copy_from_slice(&sends);
    Ok(())
}
