//! Shrinking, of document 02's P7: a rehearsal whose last step was refused is cut
//! down to the steps that this answer needs.

use crate::form::STEP_LENGTH;
use crate::refusals::refuse_if;
use crate::report::{refused, INPUT_SIZE};
use crate::state::State;
use crate::step::step;
use crate::table::{read_front, Table};
use crate::Refusal;

/// What is left of a rehearsal.
#[derive(Clone, Debug, PartialEq, Eq)]
pub struct Left {
    /// The steps' numbers in the original, where the first is 1.
    pub numbers: Vec<usize>,
    /// How many steps each pass dropped: the last of them none.
    pub dropped: Vec<usize>,
}

/// A step's number in the original, and its bytes.
type Numbered<'a> = (usize, &'a [u8]);

/// The whole output of the program `shrink`.
pub fn shrink(input: &[u8]) -> Vec<u8> {
    text(&steps_left(input))
}

/// The numbers that are left, one a line; or the refusal.
pub fn text(left: &Result<Left, Refusal>) -> Vec<u8> {
    let line = |number: &usize| format!("{number}\n").into_bytes();
    match left {
        Ok(left) => left.numbers.iter().flat_map(line).collect(),
        Err(refusal) => refused(*refusal),
    }
}

/// 15, 1 to 4, then 18: there are no steps, or the last answers 0.
pub fn steps_left(input: &[u8]) -> Result<Left, Refusal> {
    refuse_if(input.len() > INPUT_SIZE, Refusal::Input)?;
    let (table, end) = read_front(input)?;
    // The last chunk may be a short tail, which is a step too.
    let mut steps: Vec<Numbered> = (1..).zip(input[end..].chunks(STEP_LENGTH)).collect();
    let last = last_answer(&table, &steps);
    refuse_if(last.is_none_or(|answer| answer == 0), Refusal::Clean)?;
    let mut dropped = Vec::new();
    while dropped.last() != Some(&0) {
        let before = steps.len();
        pass(&table, &mut steps, last);
        dropped.push(before - steps.len());
    }
    Ok(Left { numbers: steps.into_iter().map(|(number, _)| number).collect(), dropped })
}

/// One pass, from the last but one to the first: each step is dropped without which
/// the last answer stays the same number.
fn pass(table: &Table, steps: &mut Vec<Numbered>, last: Option<u8>) {
    for at in (0..steps.len() - 1).rev() {
        let mut without = steps.clone();
        without.remove(at);
        if last_answer(table, &without) == last {
            *steps = without;
        }
    }
}

/// The answer to the last of these steps, run one after the other from the fresh
/// state; none if there are no steps.
fn last_answer(table: &Table, steps: &[Numbered]) -> Option<u8> {
    let mut state = State::fresh(table);
    steps.iter().map(|(_, bytes)| step(table, &mut state, bytes)).last()
}
