//! The peered board of document 01, written plainly from its text.
//!
//! It is meant to be read beside the document and to be compared with the
//! engine. It is not fast, and its state is not a buffer: number 14 (state),
//! which is about the buffer's bytes, has no place here, but in `field`.
//!
//! - `pairs`: pairs of offset and length, and the texts that they mark out
//! - `season`: of which season a table is, and what that changes
//! - `header`: the table's header, with the thresholds and weights
//! - `table`: the ballot table, its items, the clash, the quorum
//! - `state`: what is held outside and by each peer
//! - `form`: 13 bytes as a step, or 5
//! - `refusals`: the refusals that several ops share
//! - `step`: the refusals of each op in their order, and its effect; those of a
//!   dishonest peer stand in `false_steps`
//! - `report`: the rehearsal, from input bytes to output bytes
//! - `totals`: the figures at its foot, counted from the accepted steps
//! - `union`: the union of the databases, and its board
//! - `sheet`: a published board as a file of its own, written and read
//! - `shrink`: a rehearsal that was refused at its end, cut down
//! - `gain`: the most that the bag can gain by a step file, counted from the file alone
//! - `field`: one peer's box for the field, on bytes of its own
//! - `ideal`: the ideal board

mod false_steps;
pub mod field;
pub mod form;
pub mod gain;
mod header;
pub mod ideal;
pub mod pairs;
mod refusals;
pub mod report;
pub mod season;
pub mod sheet;
pub mod shrink;
pub mod state;
pub mod step;
pub mod table;
pub mod totals;
pub mod union;

/// The numbers that are answered, but for 0 (done) and 14 (state).
#[derive(Clone, Copy, Debug, PartialEq, Eq)]
pub enum Refusal {
    Header = 1,
    Pairs = 2,
    Item = 3,
    Twin = 4,
    Form = 5,
    Name = 6,
    Role = 7,
    Down = 8,
    Period = 9,
    Unknown = 10,
    Clash = 11,
    Short = 12,
    Full = 13,
    Input = 15,
    Sheet = 16,
    Given = 17,
    Clean = 18,
}

impl Refusal {
    pub fn number(self) -> u8 {
        self as u8
    }
}
