//! Engines that go wrong on purpose on the report of document 02's P8: weights are shown
//! for numbers of peers. Each must be found.

use crate::layout::decode;
use crate::{board_report_most, Engine, PLAIN};
use reference::state::State;
use reference::table::{read_front, Table};
use std::collections::BTreeSet;

/// The last number of a line, by its fields, if it is to be another.
type Last = fn(&Table, &State, &[&str]) -> Option<usize>;

/// The true report but for such numbers: its length.
fn rehearse(input: &[u8], state: &mut [u8], out: &mut [u8], last: Last) -> usize {
    with_lines(input, state, out, |table, held, line| with_last(table, held, line, last))
}

/// The report with each line changed, by the table and the state after the last step;
/// as it is where the input is refused. Its length.
pub(crate) fn with_lines(
    input: &[u8],
    state: &mut [u8],
    out: &mut [u8],
    change: impl Fn(&Table, &State, &str) -> String,
) -> usize {
    let mut report = vec![0; board_report_most()];
    let length = (PLAIN.rehearse)(input, state, &mut report);
    let mut text = String::from_utf8(report[..length].to_vec()).expect("a report in ASCII");
    if !text.starts_with("refused ") {
        let (table, _) = read_front(input).expect("a table that was taken");
        let held = decode(&table, state);
        text = text.lines().map(|line| change(&table, &held, line) + "\n").collect();
    }
    let fits = text.len().min(out.len());
    out[..fits].copy_from_slice(&text.as_bytes()[..fits]);
    text.len()
}

/// A line with another last number, or as it is.
fn with_last(table: &Table, held: &State, line: &str, last: Last) -> String {
    let fields: Vec<&str> = line.split(' ').collect();
    match (last(table, held, &fields), line.rsplit_once(' ')) {
        (Some(last), Some((start, _))) => format!("{start} {last}"),
        _ => line.to_string(),
    }
}

const fn wrong(name: &'static str, rehearse: fn(&[u8], &mut [u8], &mut [u8]) -> usize) -> Engine {
    Engine { name, rehearse, ..PLAIN }
}

/// The signers that a line of a database is about: peer, period and item.
fn signers(held: &State, fields: &[&str]) -> BTreeSet<usize> {
    let [j, period, item] = [0, 1, 2].map(|at| fields[at].parse().expect("a number"));
    held.peer(j).signers(period, item)
}

/// With the true numbers, and else like those below: it must not be found.
pub const RIGHT_REPORT: Engine = wrong("numbers of peers", |input, state, out| {
    rehearse(input, state, out, |table, held, fields| match fields {
        ["peers", ..] => Some(table.honest_count()),
        ["db", rest @ ..] => Some(signers(held, rest).len()),
        _ => None,
    })
});

pub const WRONG_REPORTS: [Engine; 2] = [
    wrong("the weight of the honest peers", |input, state, out| {
        rehearse(input, state, out, |table, _, fields| match fields {
            ["peers", ..] => Some(table.honest_weight()),
            _ => None,
        })
    }),
    wrong("the weight of signers", |input, state, out| {
        rehearse(input, state, out, |table, held, fields| match fields {
            ["db", rest @ ..] => Some(table.weight(&signers(held, rest))),
            _ => None,
        })
    }),
];
