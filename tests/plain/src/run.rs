//! An input's steps, run one by one from the fresh state.

use crate::advance::advance;
use crate::answer;
use crate::state::{State, SIZE};
use crate::table::Table;

const MOST_INPUT: usize = 65_536;
pub const STEP: usize = 13;

/// A table with its clash masks, and the state under it.
pub struct Run<'a> {
    pub(crate) table: Table,
    clashes: [u64; 64],
    pub(crate) state: &'a mut State,
}

impl<'a> Run<'a> {
    /// The run of an input from the fresh state, and its steps.
    pub fn over<'b>(input: &'b [u8], state: &'a mut [u8]) -> Result<(Run<'a>, &'b [u8]), u8> {
        if input.len() > MOST_INPUT {
            return Err(15);
        }
        let (table, end) = Table::front(input)?;
        if state.len() != SIZE {
            return Err(14);
        }
        state.fill(0);
        let clashes = table.all_clashes();
        Ok((Run { table, clashes, state: State::over(state) }, &input[end..]))
    }

    /// The answer to one step.
    pub fn step(&mut self, bytes: &[u8]) -> u8 {
        answer(advance(&self.table, |item| self.clashes[item], self.state, bytes))
    }

    /// The state's bytes.
    pub fn state(&self) -> &[u8] {
        self.state.bytes()
    }

    /// Back to the fresh state.
    pub fn make_fresh(&mut self) {
        self.state.make_fresh();
    }
}
