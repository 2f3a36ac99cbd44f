//! A rehearsal that was cut down, as text: the lines of its table, and those of the
//! steps that are left, whose numbers the program `shrink` prints.

use crate::read;
use crate::reasons::phrases::count;
use crate::steps::{write_step, STEP_LENGTH};
use crate::table::write_table;
use crate::words::{lines, Line};

/// The lines of a rehearsal that have words: the table's, and one for each step.
pub struct Lines {
    table: Vec<String>,
    steps: Vec<String>,
}

impl Lines {
    /// Of a rehearsal written as text, as they stand there. An error names its line.
    pub fn of_text(text: &str) -> Result<Lines, String> {
        let count = read(text)?.steps.len();
        let all: Vec<&str> = text.lines().collect();
        let mut table: Vec<String> =
            lines(text).map(|line| all[line.number - 1].trim_end().to_string()).collect();
        let steps = table.split_off(table.len() - count);
        Ok(Lines { table, steps })
    }

    /// Of a rehearsal in bytes. An error says what the table lacks.
    pub fn of_bytes(input: &[u8]) -> Result<Lines, String> {
        let (table, end) = write_table(input)?;
        let steps = input[end..].chunks(STEP_LENGTH).map(write_step).collect();
        Ok(Lines { table, steps })
    }

    /// The table's lines, and those of the steps with these numbers, each with its
    /// number behind it. An error says what is wrong with the numbers.
    pub fn keep(&self, numbers: &str) -> Result<String, String> {
        let mut kept = self.table.clone();
        for number in self.numbers(numbers)? {
            kept.push(format!("{}  # step {number}", self.steps[number - 1]));
        }
        Ok(kept.join("\n") + "\n")
    }

    /// The numbers of steps, one a line. They rise, and the last is the last step's.
    fn numbers(&self, text: &str) -> Result<Vec<usize>, String> {
        let (all, mut numbers) = (self.steps.len(), Vec::new());
        for line in lines(text) {
            let before = numbers.last().copied().unwrap_or(0);
            numbers.push(number(line, before, all)?);
        }
        match numbers.last() {
            Some(last) if *last == all => Ok(numbers),
            Some(last) => {
                let steps = count(all, "step");
                let whole = "and the last one is always left";
                Err(format!("it ends with step {last}, but the rehearsal has {steps}, {whole}"))
            }
            None => Err("it has no step number".to_string()),
        }
    }
}

/// The step number that a line has alone: above the one before it.
fn number(mut line: Line, before: usize, all: usize) -> Result<usize, String> {
    if line.name() == "refused" {
        return Err(told_refusal(&line));
    }
    if all == 0 {
        return Err(line.expected("no number, since the rehearsal has no steps"));
    }
    let number = line.number("a step number", 1, all as u32)? as usize;
    line.end()?;
    match number > before {
        true => Ok(number),
        false => Err(line.error(&format!("expected a number above {before}, found '{number}'"))),
    }
}

/// What it means that `shrink` printed a refusal.
fn told_refusal(line: &Line) -> String {
    let said = line.source().words;
    let meaning = match &said[..] {
        "refused 18" => "the last step is not refused, or there are no steps",
        _ => "the rehearsal is refused, and scribe explain says why",
    };
    format!("it says \"{said}\": {meaning}")
}
