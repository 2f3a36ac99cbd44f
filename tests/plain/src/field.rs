//! The field peer: one honest peer's box, on bytes of its own (docs/FIELD.md). It
//! validates table and state at each call.
//!
//! - `state`: its bytes as a struct
//! - `valid`: row 14 of them
//! - `ops`: what each op asks and does

mod ops;
mod state;
mod valid;

use crate::form::{read_named, Fields, BOARD, ITEM, OTHER, PEER, PERIOD};
use crate::guards::{refuse_if, FORM, NAME, STATE};
use crate::table::Table;
use crate::{answer, Done};
use ops::Peer;
use state::State;

/// The bytes of a message, of a step and of what is sent; and of a database's period,
/// which stands behind a fetch.
const SHORT: usize = 13;
const ROW: usize = 128;

/// What is sent: op, period, item, board. Nothing is sent with op 0.
#[derive(Default)]
struct Sent {
    op: u8,
    period: u8,
    item: u8,
    board: u64,
}

impl Sent {
    fn bytes(&self, peer: u8) -> [u8; SHORT] {
        let mut bytes = [0; SHORT];
        if self.op != 0 {
            bytes[..5].copy_from_slice(&[self.op, peer, 0, self.period, self.item]);
            bytes[5..].copy_from_slice(&self.board.to_be_bytes());
        }
        bytes
    }
}

pub fn field_state_length() -> usize {
    state::SIZE
}

/// What is brought to the peer: 2, 4, 8, 10.
pub fn field_message(table: &[u8], peer: u8, state: &mut [u8], message: &[u8]) -> u8 {
    answer(message_or_refuse(table, peer, state, message))
}

/// What the peer does itself: 3, 5, 7, 9, 11, 17, 18.
pub fn field_step(table: &[u8], peer: u8, state: &mut [u8], step: &[u8], sent: &mut [u8]) -> u8 {
    answer(step_or_refuse(table, peer, state, step, sent))
}

fn message_or_refuse(table: &[u8], peer: u8, state: &mut [u8], message: &[u8]) -> Done {
    let table = valid_table(table, state)?;
    let (front, behind) = message.split_first_chunk().ok_or(FORM)?;
    let named = match (front[0], behind.len()) {
        (2, 0) => PEER | ITEM,
        (4, 0) => PEER | OTHER | PERIOD | ITEM,
        (8, ROW) => PEER | OTHER | PERIOD,
        (10, 0) => PEER | OTHER | PERIOD | BOARD,
        _ => return Err(FORM),
    };
    let fields = read_named(front, named).ok_or(FORM)?;
    let mut peer = own(&table, peer, state, &fields)?;
    match fields.op {
        2 => peer.hand(&fields),
        4 => peer.take(&fields),
        8 => peer.fetch(&fields, behind.try_into().unwrap()),
        _ => peer.hear(&fields),
    }
}

fn step_or_refuse(table: &[u8], peer: u8, state: &mut [u8], step: &[u8], sent: &mut [u8]) -> Done {
    let table = valid_table(table, state)?;
    refuse_if(sent.len() != SHORT, STATE)?;
    let step: &[u8; SHORT] = step.try_into().map_err(|_| FORM)?;
    let named = match step[0] {
        3 | 5 => PEER | ITEM,
        7 | 11 | 17 | 18 => PEER,
        9 => PEER | PERIOD,
        _ => return Err(FORM),
    };
    let fields = read_named(step, named).ok_or(FORM)?;
    let mut own = own(&table, peer, state, &fields)?;
    let going = match fields.op {
        3 => own.sign(&fields),
        5 => own.share(&fields),
        7 => own.close(),
        9 => own.hash(&fields),
        11 => own.back(),
        _ => own.set_down(&fields),
    }?;
    sent.copy_from_slice(&going.bytes(peer));
    Ok(())
}

/// 1 to 4, then 14 for the state under the table.
fn valid_table(table: &[u8], state: &[u8]) -> Result<Table, u8> {
    let table = Table::whole(table)?;
    refuse_if(state.len() != state::SIZE || !valid::is_state(&table, state), STATE)?;
    Ok(table)
}

/// The peer of the call, which the bytes must name too, and which must be honest.
fn own<'a>(
    table: &'a Table,
    peer: u8,
    state: &'a mut [u8],
    fields: &Fields,
) -> Result<Peer<'a>, u8> {
    let j = table.peer(peer)?;
    refuse_if(fields.peer != peer, NAME)?;
    table.need_honest(j)?;
    Ok(Peer { table, j, state: State::over(state) })
}
