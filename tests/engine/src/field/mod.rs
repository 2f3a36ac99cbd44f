//! The proved field peer, called as C calls it, and what it takes to compare it with the
//! independent one and with the board.
//!
//! - `call`: boxes on the same calls
//! - `outside`: what a board's bytes have outside, by peers' names, and a peer's part
//! - `fed`: a board beside the boxes of its honest peers, fed with what it passes
//! - `wrong`, with `wrong_messages` and `wrong_steps`: boxes that go wrong on purpose

pub mod call;
pub mod fed;
pub mod outside;
pub mod wrong;
pub mod wrong_messages;
pub mod wrong_steps;

/// A box for the field over lent bytes.
#[derive(Clone, Copy)]
pub struct FieldBox {
    pub name: &'static str,
    /// Table, peer, state and message: the answer.
    pub message: TakeMessage,
    /// Table, peer, state, step, and room for what is sent: the answer.
    pub step: DoStep,
}

pub type TakeMessage = fn(&[u8], u8, &mut [u8], &[u8]) -> u8;
pub type DoStep = fn(&[u8], u8, &mut [u8], &[u8], &mut [u8]) -> u8;

pub const PROVED_BOX: FieldBox =
    FieldBox { name: "proved", message: field_message, step: field_step };

pub const PLAIN_BOX: FieldBox =
    FieldBox { name: "plain", message: plain::field_message, step: plain::field_step };

/// Written from the papers' words alone.
pub const INDEPENDENT_BOX: FieldBox = FieldBox {
    name: "independent",
    message: reference::field::field_message,
    step: reference::field::field_step,
};

/// The boxes that are held to the independent one.
pub const BOXES: [FieldBox; 2] = [PROVED_BOX, PLAIN_BOX];

mod c {
    extern "C" {
        pub fn field_state_length() -> usize;
        pub fn field_message(
            table: *const u8,
            table_length: usize,
            peer: u8,
            state: *mut u8,
            state_length: usize,
            message: *const u8,
            message_length: usize,
        ) -> u8;
        pub fn field_step(
            table: *const u8,
            table_length: usize,
            peer: u8,
            state: *mut u8,
            state_length: usize,
            step: *const u8,
            step_length: usize,
            sent: *mut u8,
            sent_length: usize,
        ) -> u8;
    }
}

pub fn field_state_length() -> usize {
    // It takes nothing and reads no memory.
    unsafe { c::field_state_length() }
}

pub fn field_message(table: &[u8], peer: u8, state: &mut [u8], message: &[u8]) -> u8 {
    let (table, n) = (table.as_ptr(), table.len());
    let (state, m) = (state.as_mut_ptr(), state.len());
    // Each pointer goes with its slice's length.
    unsafe { c::field_message(table, n, peer, state, m, message.as_ptr(), message.len()) }
}

pub fn field_step(table: &[u8], peer: u8, state: &mut [u8], step: &[u8], sent: &mut [u8]) -> u8 {
    let (table, n) = (table.as_ptr(), table.len());
    let (state, m) = (state.as_mut_ptr(), state.len());
    let (step, k) = (step.as_ptr(), step.len());
    // Each pointer goes with its slice's length.
    unsafe { c::field_step(table, n, peer, state, m, step, k, sent.as_mut_ptr(), sent.len()) }
}
