//! The rehearsal: a table and steps in, the report out, to the byte.

use crate::form::STEP_LENGTH;
use crate::state::State;
use crate::step::step;
use crate::table::{read_front, Table};
use crate::totals::{made, totals, Made};
use crate::Refusal;

/// The most bytes that a rehearsal takes.
pub const INPUT_SIZE: usize = 65_536;

/// What the steps of an input came to.
pub struct Run {
    pub table: Table,
    /// Each step's answer.
    pub answers: Vec<u8>,
    /// What the accepted steps made, one after the other.
    pub made: Vec<Made>,
    /// The state after the last step.
    pub state: State,
}

/// The whole output for a rehearsal input.
pub fn rehearse(input: &[u8]) -> Vec<u8> {
    match run(input) {
        Ok(run) => report(&run).into_bytes(),
        Err(refusal) => refused(refusal),
    }
}

/// The whole output for an input that is refused.
pub fn refused(refusal: Refusal) -> Vec<u8> {
    format!("refused {}\n", refusal.number()).into_bytes()
}

/// The steps of an input, run from the fresh state of its table.
pub fn run(input: &[u8]) -> Result<Run, Refusal> {
    if input.len() > INPUT_SIZE {
        return Err(Refusal::Input);
    }
    let (table, end) = read_front(input)?;
    let state = State::fresh(&table);
    let mut run = Run { table, answers: Vec::new(), made: Vec::new(), state };
    // The last chunk may be a short tail: one step, answered 5.
    input[end..].chunks(STEP_LENGTH).for_each(|bytes| run.call(bytes));
    Ok(run)
}

impl Run {
    /// One step more. What a publish names is looked up before it is run.
    fn call(&mut self, bytes: &[u8]) {
        let made = made(&self.state, bytes);
        let answer = step(&self.table, &mut self.state, bytes);
        self.made.extend(made.filter(|_| answer == 0));
        self.answers.push(answer);
    }
}

fn report(run: &Run) -> String {
    let Run { table, answers, made, state } = run;
    let mut lines = Vec::new();
    lines.push(format!("peers {} threshold {} honest {}", table.n, table.t, table.honest_count()));
    for (k, answer) in answers.iter().enumerate() {
        lines.push(format!("{} {}", k + 1, answer));
    }
    for j in 1..=table.n {
        for ((period, item), signers) in &state.peer(j).database {
            lines.push(format!("db {} {} {} {}", j, period, item, signers.len()));
        }
    }
    for (period, item) in &state.receipts {
        lines.push(format!("receipt {} {}", period, item));
    }
    for (period, board) in state.boards() {
        let items: String = board.iter().map(|item| format!(" {}", item)).collect();
        lines.push(format!("board {}{}", period, items));
    }
    let [posts, receipts, items] = totals(made);
    lines.push(format!("totals {} {} {}", posts, receipts, items));
    lines.push("end".to_string());
    lines.iter().map(|line| line.to_string() + "\n").collect()
}
