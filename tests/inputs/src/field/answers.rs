//! Which answers a box gave, and which it can give.

use reference::form::STEP_LENGTH;
use std::collections::{BTreeMap, BTreeSet};
use std::fmt;

/// An op with its name and answers.
pub struct Row {
    pub op: u8,
    pub name: &'static str,
    pub answers: &'static [u8],
}

const fn row(op: u8, name: &'static str, answers: &'static [u8]) -> Row {
    Row { op, name, answers }
}

/// What each op can get on any bytes; the first row is for bytes that are neither a
/// message nor a step. 1 to 4 and 14 are not of an op.
pub static ANY: &[Row] = &[
    row(0, "no message", &[5]),
    row(2, "hand", &[0, 5, 6, 7, 8, 9, 11]),
    row(3, "sign", &[0, 5, 6, 7, 8, 9, 10]),
    row(4, "take", &[0, 5, 6, 7, 8, 9]),
    row(5, "share", &[0, 5, 6, 7, 8, 9, 12, 17]),
    row(7, "close", &[0, 5, 6, 7, 8, 9]),
    row(8, "fetch", &[0, 5, 6, 7, 8, 9]),
    row(9, "hash", &[0, 5, 6, 7, 8, 9]),
    row(10, "hear", &[0, 5, 6, 7, 8, 9, 13]),
    row(11, "back", &[0, 5, 6, 7, 8, 9, 12]),
    row(17, "down", &[0, 5, 6, 7]),
    row(18, "up", &[0, 5, 6, 7]),
];

/// What each op can get of an honest peer that a rehearsal feeds: what is brought to it
/// names nothing out of range.
pub static FED: &[Row] = &[
    row(2, "hand", &[0, 8, 9, 11]),
    row(3, "sign", &[0, 6, 8, 9, 10]),
    row(4, "take", &[0, 8, 9]),
    row(5, "share", &[0, 6, 8, 9, 12, 17]),
    row(7, "close", &[0, 8, 9]),
    row(8, "fetch", &[0, 8, 9]),
    row(9, "hash", &[0, 6, 8, 9]),
    row(10, "hear", &[0, 8, 9, 13]),
    row(11, "back", &[0, 8, 9, 12]),
    row(17, "down", &[0]),
    row(18, "up", &[0]),
];

/// How often each op got each answer.
#[derive(Default)]
pub struct Answers(BTreeMap<(u8, u8), usize>);

impl Answers {
    /// Bytes of another length, or of another op, are no message.
    pub fn count(&mut self, bytes: &[u8], answer: u8) {
        let op = bytes
            .first()
            .copied()
            .filter(|op| bytes.len() >= STEP_LENGTH && ANY.iter().any(|row| row.op == *op));
        *self.0.entry((op.unwrap_or(0), answer)).or_default() += 1;
    }

    pub fn calls(&self) -> usize {
        self.0.values().sum()
    }

    /// How often an op got an answer.
    pub fn of(&self, op: u8, answer: u8) -> usize {
        self.0.get(&(op, answer)).copied().unwrap_or(0)
    }

    /// How often any op got the answer.
    pub fn times(&self, answer: u8) -> usize {
        self.0.iter().filter(|(key, _)| key.1 == answer).map(|(_, times)| times).sum()
    }

    /// What was never answered although it can be, and the reverse; but for answers that
    /// are not of an op.
    pub fn wrong(&self, rows: &[Row]) -> Vec<String> {
        let possible = rows.iter().flat_map(|row| row.answers.iter().map(|a| (row.op, *a)));
        let possible: BTreeSet<(u8, u8)> = possible.collect();
        let is_of_op = |answer: u8| ![1, 2, 3, 4, 14].contains(&answer);
        let given = self.0.keys().copied().filter(|(_, answer)| is_of_op(*answer));
        let given: BTreeSet<(u8, u8)> = given.collect();
        let line = |(op, answer): &(u8, u8)| {
            format!("op {op}: answer {answer}, {} times", self.of(*op, *answer))
        };
        possible.symmetric_difference(&given).map(line).collect()
    }
}

/// A row for each op.
impl fmt::Display for Answers {
    fn fmt(&self, f: &mut fmt::Formatter) -> fmt::Result {
        let columns: BTreeSet<u8> = self.0.keys().map(|key| key.1).collect();
        let head: String = columns.iter().map(|answer| format!("{answer:>8}")).collect();
        writeln!(f, "{:<14}{head}", "op / answer")?;
        for row in ANY {
            let cells = columns.iter().map(|answer| match self.of(row.op, *answer) {
                0 => format!("{:>8}", "."),
                times => format!("{times:>8}"),
            });
            writeln!(f, "{:>2} {:<11}{}", row.op, row.name, cells.collect::<String>())?;
        }
        Ok(())
    }
}
