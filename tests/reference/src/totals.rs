//! The totals at the foot of the report, of document 02's P1: counted from the
//! steps that were accepted, and not from the state that they led to.

use crate::form::{read_step, Step};
use crate::state::{Board, State};
use std::collections::BTreeSet;

/// What an accepted step makes, of that which is counted.
#[derive(Clone, Debug, PartialEq, Eq, PartialOrd, Ord)]
pub enum Made {
    /// An item posted.
    Post(usize),
    /// A receipt: period and item.
    Receipt(usize, usize),
    /// A board published: its period and its items.
    Board(usize, Board),
}

/// What the bytes make if they are accepted in this state. They say all of it,
/// but for a publish: that names a backing by its number in the bag.
pub fn made(state: &State, bytes: &[u8]) -> Option<Made> {
    match read_step(bytes) {
        Ok(Step::Post { item }) => Some(Made::Post(item)),
        Ok(Step::Receipt { period, item }) => Some(Made::Receipt(period, item)),
        Ok(Step::Publish { entry }) => {
            let (period, board) = state.backing(entry)?;
            Some(Made::Board(period, board))
        }
        _ => None,
    }
}

/// Different items posted, receipts, and items summed over all boards. What was
/// made again is not counted again; two boards of one period are two.
pub fn totals(made: &[Made]) -> [usize; 3] {
    let different: BTreeSet<&Made> = made.iter().collect();
    let figures = different.into_iter().map(|made| match made {
        Made::Post(_) => [1, 0, 0],
        Made::Receipt(..) => [0, 1, 0],
        Made::Board(_, board) => [0, 0, board.len()],
    });
    figures.fold([0; 3], |sum, figure| [0, 1, 2].map(|k| sum[k] + figure[k]))
}
