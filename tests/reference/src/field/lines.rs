//! A rehearsal as one peer meets it: a line for each call that passes the peer something,
//! with what the independent box makes of it.

use crate::field::bytes::LENGTH;
use crate::field::passed::passed;
use crate::form::STEP_LENGTH;
use crate::refusals::{name_peer, need_honest, refuse_if};
use crate::report::{refused, INPUT_SIZE};
use crate::state::State;
use crate::step::step;
use crate::table::read_front;
use crate::Refusal;

/// The whole output for a peer and a rehearsal input.
pub fn field_lines(peer: usize, input: &[u8]) -> Vec<u8> {
    lines(peer, input).map_or_else(refused, String::into_bytes)
}

/// Each line: the step's number in the rehearsal, the message's bytes, the answer, and
/// what is sent, or `-`. 15, 1 to 4, then 6 and 7 of the peer.
fn lines(peer: usize, input: &[u8]) -> Result<String, Refusal> {
    refuse_if(input.len() > INPUT_SIZE, Refusal::Input)?;
    let (table, end) = read_front(input)?;
    name_peer(&table, peer)?;
    need_honest(&table, peer)?;
    let (mut state, mut part, mut lines) = (State::fresh(&table), [0; LENGTH], String::new());
    for (number, call) in (1..).zip(input[end..].chunks(STEP_LENGTH)) {
        if let Some(passed) = passed(&table, &state, peer, call) {
            let mut sent = [0; STEP_LENGTH];
            let answer = passed.call(&input[..end], peer as u8, &mut part, &mut sent);
            let sent = if sent == [0; STEP_LENGTH] { "-".to_string() } else { hex(&sent) };
            lines += &format!("{number} {} {answer} {sent}\n", hex(passed.bytes()));
        }
        step(&table, &mut state, call);
    }
    Ok(lines)
}

/// Bytes in hexadecimal, two digits each.
fn hex(bytes: &[u8]) -> String {
    bytes.iter().map(|byte| format!("{byte:02x}")).collect()
}
