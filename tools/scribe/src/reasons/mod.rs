//! Why a step got its answer, and what it brought, told from the state of the
//! independent engine (`tests/reference`), which knows nothing of this.
//!
//! - `phrases`: the words for numbers, lists, items and entries
//! - `quorum`: peers, or their weight, beside the t that is needed
//! - `items`: what is wrong with the texts of items
//! - `input`: why a table or an input is refused
//! - `refusals`: why a step is refused; `unknown` and `short`: with 10 and 12
//! - `news`: what a step has changed; `cleared`: what a clear has removed, and who has
//!   yet to back the period

mod cleared;
pub mod input;
pub(crate) mod items;
mod news;
pub(crate) mod phrases;
mod quorum;
pub mod refusals;
mod short;
mod unknown;

use reference::form::{read_step, Step};
use reference::state::State;
use reference::step::call;
use reference::table::Table;
use reference::Refusal;

/// Stands where a reason should; no step and no input may come to it.
pub const NO_REASON: &str = "no reason is known";

/// What is told of a step.
pub struct Told {
    pub refusal: Option<Refusal>,
    /// For a refusal the fact behind it, for a step that is done what is new;
    /// none if there is no such fact, which is a fault of this program.
    pub reason: Option<String>,
}

impl Told {
    pub fn answer(&self) -> u8 {
        self.refusal.map_or(0, Refusal::number)
    }

    /// "12 short: ..", "0 done: .."
    pub fn line(&self) -> String {
        let word = self.refusal.map_or("done", phrases::word);
        let reason = self.reason.as_deref().unwrap_or(NO_REASON);
        format!("{} {word}: {reason}", self.answer())
    }
}

/// A run on a table that is told step by step.
pub struct Telling<'a> {
    table: &'a Table,
    before: State,
    after: State,
}

impl Telling<'_> {
    /// From the fresh state on.
    pub fn on(table: &Table) -> Telling<'_> {
        Telling { table, before: State::fresh(table), after: State::fresh(table) }
    }

    /// Runs a step and tells of it.
    pub fn tell(&mut self, bytes: &[u8]) -> Told {
        let Telling { table, before, after } = self;
        if let Err(refusal) = call(table, after, bytes) {
            let reason = refusals::why(table, before, bytes, refusal);
            return Told { refusal: Some(refusal), reason };
        }
        let reason = match read_step(bytes) {
            Ok(Step::Clear { period }) => cleared::removed(before, after, period),
            _ => news::news(table, before, after),
        };
        // The same step again, which takes less than a copy of the state.
        let again = call(table, before, bytes);
        assert_eq!(again, Ok(()));
        Told { refusal: None, reason: Some(reason) }
    }
}
