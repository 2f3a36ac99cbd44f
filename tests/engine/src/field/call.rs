//! Boxes on the same calls.

use crate::field::{FieldBox, BOXES, INDEPENDENT_BOX};
use reference::field::passed::Passed;

/// A call on a box: its state before, and what the output has before.
pub struct Call<'a> {
    pub table: &'a [u8],
    pub peer: u8,
    pub before: &'a [u8],
    pub passed: &'a Passed,
    pub out: &'a [u8],
}

/// What came of a call: the answer, and the bytes lent with those around them.
#[derive(Clone, PartialEq, Eq)]
pub struct Outcome {
    pub answer: u8,
    state: Vec<u8>,
    sent: Vec<u8>,
}

/// So many bytes stand before what is lent, and behind it; they must stay.
const AROUND: usize = 9;

fn lend(bytes: &[u8]) -> Vec<u8> {
    [&[0xA5; AROUND], bytes, &[0x5A; AROUND]].concat()
}

/// What is lent of these bytes.
fn lent(bytes: &[u8]) -> &[u8] {
    &bytes[AROUND..bytes.len() - AROUND]
}

fn lent_mut(bytes: &mut [u8]) -> &mut [u8] {
    let end = bytes.len() - AROUND;
    &mut bytes[AROUND..end]
}

impl Outcome {
    pub fn state(&self) -> &[u8] {
        lent(&self.state)
    }

    /// The output: as it was if the call was a message, or was refused.
    pub fn sent(&self) -> &[u8] {
        lent(&self.sent)
    }
}

impl Call<'_> {
    /// The call on a box.
    pub fn on(&self, field: &FieldBox) -> Outcome {
        let (mut state, mut sent) = (lend(self.before), lend(self.out));
        let (lent_state, lent_sent) = (lent_mut(&mut state), lent_mut(&mut sent));
        let answer = match self.passed {
            Passed::Message(bytes) => (field.message)(self.table, self.peer, lent_state, bytes),
            Passed::Step(bytes) => {
                (field.step)(self.table, self.peer, lent_state, bytes, lent_sent)
            }
        };
        Outcome { answer, state, sent }
    }

    /// How a box differs from what is due, if it does.
    pub fn compare(&self, field: &FieldBox, due: &Outcome) -> Result<(), String> {
        let outcome = self.on(field);
        if outcome == *due {
            return Ok(());
        }
        let first = |one: &[u8], other: &[u8]| {
            let at = (0..one.len()).find(|at| one[*at] != other[*at]);
            at.map_or("none".to_string(), |at| (at as isize - AROUND as isize).to_string())
        };
        let (answer, expected) = (outcome.answer, due.answer);
        let state = first(&outcome.state, &due.state);
        let sent = first(&outcome.sent, &due.sent);
        let wrong = format!("first wrong byte of the state {state}, of what is sent {sent}");
        Err(format!("{}: {answer}, not {expected}; {wrong}\n{}", field.name, self.told()))
    }

    /// The call on the independent box and on those held to it: what came of it, or how
    /// one differs. A refused call alters nothing.
    pub fn same(&self) -> Result<Outcome, String> {
        let due = self.on(&INDEPENDENT_BOX);
        let unaltered = due.state() == self.before && due.sent() == self.out;
        assert!(due.answer == 0 || unaltered, "the independent box altered by a refused call");
        BOXES.iter().try_for_each(|field| self.compare(field, &due))?;
        Ok(due)
    }

    /// All that repeats the call.
    fn told(&self) -> String {
        let hex = |bytes: &[u8]| bytes.iter().map(|b| format!("{b:02x}")).collect::<String>();
        let places = self.before.iter().enumerate().filter(|(_, byte)| **byte != 0);
        let (function, bytes) = match self.passed {
            Passed::Message(bytes) => ("field_message", bytes),
            Passed::Step(bytes) => ("field_step", bytes),
        };
        let (table, bytes) = (hex(self.table), hex(bytes));
        let (peer, room, length) = (self.peer, self.out.len(), self.before.len());
        let call = format!("peer {peer}, {function} {bytes}, output of {room} bytes");
        let places: Vec<(usize, &u8)> = places.collect();
        format!("table {table}\n{call}\nstate of {length} bytes, where not 0, {places:?}")
    }
}
