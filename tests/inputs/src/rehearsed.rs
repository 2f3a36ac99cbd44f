//! A rehearsal with what the reference makes of it.

use reference::form::STEP_LENGTH;
use reference::report::run;
use reference::state::State;
use reference::table::{read_front, Table};
use reference::totals::totals;

pub struct Rehearsed<'a> {
    pub input: &'a [u8],
    /// What it came to, or the number that refused it.
    pub outcome: Result<Outcome, u8>,
}

pub struct Outcome {
    pub table: Table,
    /// Where the table ends and the steps begin.
    pub end: usize,
    pub answers: Vec<u8>,
    pub state: State,
    /// The figures at the report's foot.
    pub totals: [usize; 3],
}

impl Rehearsed<'_> {
    pub fn new(input: &[u8]) -> Rehearsed<'_> {
        let outcome = run(input).map(|run| {
            let end = read_front(input).expect("a table that was read").1;
            let totals = totals(&run.made);
            Outcome { table: run.table, end, answers: run.answers, state: run.state, totals }
        });
        Rehearsed { input, outcome: outcome.map_err(|refusal| refusal.number()) }
    }

    /// The steps with their answers; none if the input is refused.
    pub fn calls(&self) -> impl Iterator<Item = (&[u8], u8)> {
        self.outcome.iter().flat_map(|outcome| {
            let steps = self.input[outcome.end..].chunks(STEP_LENGTH);
            steps.zip(outcome.answers.iter().copied())
        })
    }

    /// Whether it is taken, and so.
    pub fn is(&self, so: impl Fn(&Outcome) -> bool) -> bool {
        self.outcome.as_ref().is_ok_and(so)
    }

    pub fn is_refused(&self, number: u8) -> bool {
        self.outcome.as_ref().is_err_and(|refusal| *refusal == number)
    }
}
