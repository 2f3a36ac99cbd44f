//! Which answers the steps got, and which they can get.

use crate::rehearsed::Rehearsed;
use reference::form::STEP_LENGTH;
use std::collections::{BTreeMap, BTreeSet};
use std::fmt;

/// The fields that an op uses, by name; an entry is an item.
type Fields = &'static [&'static str];

/// An op with its fields and the answers that the papers give it.
pub struct Row {
    pub op: u8,
    pub name: &'static str,
    pub fields: Fields,
    pub answers: &'static [u8],
}

const fn row(op: u8, name: &'static str, fields: Fields, answers: &'static [u8]) -> Row {
    Row { op, name, fields, answers }
}

/// The ops in their order; the first row is for bytes that are no step: another
/// length, or another op. A new op is a row more, a new answer a number more.
pub static ROWS: &[Row] = &[
    row(0, "no step", &[], &[5]),
    row(1, "post", &["item"], &[0, 5, 6]),
    row(2, "hand", &["peer", "item"], &[0, 5, 6, 7, 8, 9, 10, 11]),
    row(3, "sign", &["peer", "item"], &[0, 5, 6, 7, 8, 9, 10]),
    row(4, "take", &["peer", "other", "period", "item"], &[0, 5, 6, 7, 8, 9, 10]),
    row(5, "share", &["peer", "item"], &[0, 5, 6, 7, 8, 9, 12, 17]),
    row(6, "receipt", &["period", "item"], &[0, 5, 6, 12]),
    row(7, "close", &["peer"], &[0, 5, 6, 7, 8, 9]),
    row(8, "fetch", &["peer", "other", "period"], &[0, 5, 6, 7, 8, 9]),
    row(9, "hash", &["peer", "period"], &[0, 5, 6, 7, 8, 9, 13]),
    row(10, "hear", &["peer", "item"], &[0, 5, 6, 7, 8, 9, 10]),
    row(11, "back", &["peer"], &[0, 5, 6, 7, 8, 9, 12, 13]),
    row(12, "publish", &["item"], &[0, 5, 10, 12, 13]),
    row(13, "false signature", &["peer", "period", "item"], &[0, 5, 6, 7, 10]),
    row(14, "false share", &["peer", "period", "item"], &[0, 5, 6, 7, 10]),
    row(15, "false hash", &["peer", "period", "board"], &[0, 5, 6, 7, 10, 13]),
    row(16, "false backing", &["peer", "period", "board"], &[0, 5, 6, 7, 10, 13]),
    row(17, "down", &["peer"], &[0, 5, 6, 7]),
    row(18, "up", &["peer"], &[0, 5, 6, 7]),
    row(19, "clear", &["period"], &[0, 5, 6, 9]),
];

/// The row of an op; the first one if there is no such op.
pub fn row_of(op: u8) -> &'static Row {
    ROWS.iter().find(|row| row.op == op).unwrap_or(&ROWS[0])
}

/// The number of the last op.
pub fn last_op() -> u8 {
    ROWS[ROWS.len() - 1].op
}

/// How often each op got each answer.
#[derive(Default)]
pub struct Answers(BTreeMap<(u8, u8), usize>);

impl Answers {
    pub fn count(&mut self, step: &[u8], answer: u8) {
        let op = if step.len() == STEP_LENGTH { row_of(step[0]).op } else { 0 };
        *self.0.entry((op, answer)).or_default() += 1;
    }

    pub fn count_all(&mut self, rehearsed: &Rehearsed) {
        rehearsed.calls().for_each(|(step, answer)| self.count(step, answer));
    }

    pub fn calls(&self) -> usize {
        self.0.values().sum()
    }

    /// How often any op got the answer.
    pub fn times(&self, answer: u8) -> usize {
        self.0.iter().filter(|(key, _)| key.1 == answer).map(|(_, times)| times).sum()
    }

    fn of(&self, op: u8, answer: u8) -> usize {
        self.0.get(&(op, answer)).copied().unwrap_or(0)
    }

    /// What was never answered although it can be, and the reverse.
    pub fn wrong(&self) -> Vec<String> {
        let rows = ROWS.iter().flat_map(|row| row.answers.iter().map(|answer| (row.op, *answer)));
        let possible: BTreeSet<(u8, u8)> = rows.collect();
        let given: BTreeSet<(u8, u8)> = self.0.keys().copied().collect();
        let line = |(op, answer): &(u8, u8)| {
            let (name, times) = (row_of(*op).name, self.of(*op, *answer));
            format!("op {op}, {name}: answer {answer}, {times} times")
        };
        possible.symmetric_difference(&given).map(line).collect()
    }
}

/// A row for each op; a dot where the papers have no such answer.
impl fmt::Display for Answers {
    fn fmt(&self, f: &mut fmt::Formatter) -> fmt::Result {
        let columns: BTreeSet<u8> = ROWS.iter().flat_map(|row| row.answers).copied().collect();
        let head: String = columns.iter().map(|answer| format!("{answer:>8}")).collect();
        writeln!(f, "{:<18}{head}", "op / answer")?;
        for row in ROWS {
            let cell = |answer: &u8| match self.of(row.op, *answer) {
                0 if !row.answers.contains(answer) => format!("{:>8}", "."),
                times => format!("{times:>8}"),
            };
            let cells: String = columns.iter().map(cell).collect();
            writeln!(f, "{:>2} {:<15}{cells}", row.op, row.name)?;
        }
        Ok(())
    }
}
