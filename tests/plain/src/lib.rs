//! The rules as a hand-written engine has them: fast, and without proofs.
//!
//! - `texts`: pairs of offset and length, and the items' texts
//! - `table`: the ballot table, refusals 1 to 4, clash masks, weights
//! - `state`: the bytes of docs/STATE.md as a struct
//! - `valid`: row 14
//! - `differ`: whether things all differ, by a small hash table
//! - `form`: 13 bytes as the fields of a step
//! - `guards`: the refusals that several ops share
//! - `advance`: the inner step, which validates nothing
//! - `clear`: of it op 19, the hashes of a period removed
//! - `run`: an input's steps, run one by one
//! - `lines`: text, line by line
//! - `report`: the rehearsal
//! - `shrink`: a short rehearsal that still refuses
//! - `sheet`: a period's board as a sheet, written and read
//! - `gain`: how many entries a step file can add to the bag
//! - `field`: the field peer, one peer's box

mod advance;
mod clear;
mod differ;
mod field;
mod form;
mod gain;
mod guards;
mod lines;
mod report;
mod run;
mod sheet;
mod shrink;
mod state;
mod table;
mod texts;
mod valid;

pub use field::{field_message, field_state_length, field_step};
pub use gain::gain;
use guards::{refuse_if, STATE};
pub use report::rehearse;
pub use run::Run;
pub use sheet::{check_sheet, sheet_item, write_sheet};
pub use shrink::shrink;
use state::State;
use table::Table;

/// An answer: done, or the refusal's number.
pub type Done = Result<(), u8>;

/// Its number.
fn answer(done: Done) -> u8 {
    match done {
        Ok(()) => 0,
        Err(refusal) => refusal,
    }
}

pub fn check_table(table: &[u8]) -> u8 {
    answer(Table::whole(table).map(|_| ()))
}

pub fn fresh(table: &[u8], state: &mut [u8]) -> u8 {
    let refusal = check_table(table);
    if refusal != 0 {
        return refusal;
    }
    if state.len() != state::SIZE {
        return STATE;
    }
    state.fill(0);
    0
}

pub fn step(table: &[u8], state: &mut [u8], step: &[u8]) -> u8 {
    answer(step_or_refuse(table, state, step))
}

fn step_or_refuse(table: &[u8], state: &mut [u8], step: &[u8]) -> Done {
    let table = valid_table(table, state)?;
    advance::advance(&table, |item| table.clashes(item), State::over(state), step)
}

/// 1 to 4, then 14 for the state under the table.
fn valid_table(table: &[u8], state: &[u8]) -> Result<Table, u8> {
    let table = Table::whole(table)?;
    refuse_if(state.len() != state::SIZE || !valid::is_state(&table, state), STATE)?;
    Ok(table)
}
