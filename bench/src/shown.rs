//! The sheet that is measured: of a board with all 64 items of the table.

use engine::layout::{count, entry, ENTRIES, ENTRY_LENGTH, LENGTH};
use engine::{Engine, PLAIN};
use std::hint::black_box;

/// More bytes than any sheet has.
const ROOM: usize = 3_000;

pub struct Shown<'a> {
    pub table: &'a [u8],
    /// What the input leaves, its first board made one of all items.
    pub state: Vec<u8>,
    /// The period of that board.
    pub period: u8,
    /// Its sheet.
    pub sheet: Vec<u8>,
    room: Vec<u8>,
}

impl Shown<'_> {
    pub fn over<'a>(table: &'a [u8], input: &[u8]) -> Shown<'a> {
        let mut state = vec![0; LENGTH];
        (PLAIN.rehearse)(input, &mut state, &mut []);
        let is_board = |e: &usize| entry(&state, *e)[0] == 3;
        let first = (0..count(&state)).find(is_board).expect("a published board");
        let at = ENTRIES + ENTRY_LENGTH * first;
        state[at + 3..at + ENTRY_LENGTH].fill(0xFF);
        let period = state[at + 2];
        let mut shown = Shown { table, state, period, sheet: Vec::new(), room: vec![0; ROOM] };
        let length = shown.write(&PLAIN);
        shown.sheet = shown.room[..length].to_vec();
        shown
    }

    /// Writes the sheet; its length.
    pub fn write(&mut self, engine: &Engine) -> usize {
        let (state, mut length) = (black_box(&self.state), 0);
        (engine.write_sheet)(self.table, state, self.period, &mut self.room, &mut length);
        length
    }

    /// Reads the sheet; the answer.
    pub fn check(&self, engine: &Engine) -> u8 {
        (engine.check_sheet)(black_box(&self.sheet))
    }
}
