//! Boxes that go wrong on purpose, each in one way of its own: by these the comparison is
//! shown to find what is wrong. Here are those that are wrong about lent bytes and about
//! which function takes what, and what the others are made of.

use crate::field::{FieldBox, INDEPENDENT_BOX};
use reference::field::bytes::{read_part, write_part, NEXT};
use reference::field::part::Part;
use reference::field::{field_message, field_step};
use reference::form::STEP_LENGTH;
use reference::table::{read_table, Table};
use reference::Refusal;

/// How a part takes a message, and how it does a step.
pub type Take = fn(&Table, u8, &mut Part, &[u8]) -> Result<(), Refusal>;
pub type Do = fn(&Table, u8, &mut Part, &[u8]) -> Result<[u8; STEP_LENGTH], Refusal>;

/// A message taken in another way, on a table and a state that are taken.
pub fn taken(table: &[u8], peer: u8, state: &mut [u8], message: &[u8], take: Take) -> u8 {
    let Ok(text) = read_table(table) else { return field_message(table, peer, state, message) };
    let Ok(mut part) = read_part(&text, state) else {
        return field_message(table, peer, state, message);
    };
    match take(&text, peer, &mut part, message) {
        Ok(()) => state.copy_from_slice(&write_part(&part)),
        Err(refusal) => return refusal.number(),
    }
    0
}

/// A step done in another way, likewise.
pub fn done(table: &[u8], peer: u8, state: &mut [u8], step: &[u8], sent: &mut [u8], act: Do) -> u8 {
    let Ok(text) = read_table(table) else { return field_step(table, peer, state, step, sent) };
    let Ok(mut part) = read_part(&text, state) else {
        return field_step(table, peer, state, step, sent);
    };
    if sent.len() != STEP_LENGTH {
        return field_step(table, peer, state, step, sent);
    }
    match act(&text, peer, &mut part, step) {
        Ok(sends) => {
            state.copy_from_slice(&write_part(&part));
            sent.copy_from_slice(&sends);
            0
        }
        Err(refusal) => refusal.number(),
    }
}

/// A box that takes messages so.
#[macro_export]
macro_rules! taking {
    ($name:literal, $take:expr) => {
        $crate::field::FieldBox {
            name: $name,
            message: |table, peer, state, message| {
                $crate::field::wrong::taken(table, peer, state, message, $take)
            },
            ..$crate::field::INDEPENDENT_BOX
        }
    };
}

/// A box that does steps so.
#[macro_export]
macro_rules! doing {
    ($name:literal, $act:expr) => {
        $crate::field::FieldBox {
            name: $name,
            step: |table, peer, state, step, sent| {
                $crate::field::wrong::done(table, peer, state, step, sent, $act)
            },
            ..$crate::field::INDEPENDENT_BOX
        }
    };
}

/// By the rules themselves, and else like those that are wrong: they must not be found.
pub const RIGHT_BOXES: [FieldBox; 2] = [
    taking!("messages by the rules", |table, peer, part, bytes| part.message(table, peer, bytes)),
    doing!("steps by the rules", |table, peer, part, bytes| part.step(table, peer, bytes)),
];

/// 5 is judged before 14, by the bytes alone.
fn form_first(table: &[u8], peer: u8, state: &mut [u8], message: &[u8]) -> u8 {
    let is_form = reference::field::message::read_message(message).is_err();
    match field_message(table, peer, state, message) {
        14 if is_form => 5,
        answer => answer,
    }
}

/// An output that is longer than 13 bytes will do.
fn any_room(table: &[u8], peer: u8, state: &mut [u8], step: &[u8], sent: &mut [u8]) -> u8 {
    let fits = sent.len().min(STEP_LENGTH);
    field_step(table, peer, state, step, &mut sent[..fits])
}

/// 13 zeros are sent where the step is refused.
fn sends_refused(table: &[u8], peer: u8, state: &mut [u8], step: &[u8], sent: &mut [u8]) -> u8 {
    let answer = field_step(table, peer, state, step, sent);
    if answer != 0 {
        sent.fill(0);
    }
    answer
}

/// A back that is refused as short leaves another c.
fn altered(table: &[u8], peer: u8, state: &mut [u8], step: &[u8], sent: &mut [u8]) -> u8 {
    let answer = field_step(table, peer, state, step, sent);
    if answer == 12 {
        state[NEXT] += 1;
    }
    answer
}

pub const WRONG_CALLS: [FieldBox; 7] = [
    FieldBox { name: "form before state", message: form_first, ..INDEPENDENT_BOX },
    FieldBox { name: "an output of any length", step: any_room, ..INDEPENDENT_BOX },
    FieldBox { name: "sends where refused", step: sends_refused, ..INDEPENDENT_BOX },
    FieldBox { name: "a refusal alters a byte", step: altered, ..INDEPENDENT_BOX },
    FieldBox {
        name: "messages: a step taken",
        message: |table, peer, state, message| match field_message(table, peer, state, message) {
            5 => field_step(table, peer, state, message, &mut [0; STEP_LENGTH]),
            answer => answer,
        },
        ..INDEPENDENT_BOX
    },
    FieldBox {
        name: "steps: a message taken",
        step: |table, peer, state, step, sent| match field_step(table, peer, state, step, sent) {
            5 => field_message(table, peer, state, step),
            answer => answer,
        },
        ..INDEPENDENT_BOX
    },
    FieldBox {
        name: "the peer that the bytes name",
        message: |table, peer, state, message| {
            field_message(table, message.get(1).copied().unwrap_or(peer), state, message)
        },
        ..INDEPENDENT_BOX
    },
];
