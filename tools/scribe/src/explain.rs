//! A rehearsal told line by line: each step as written, its answer with its
//! word, and the reason.

use crate::reasons::input::{why, Fault, Place};
use crate::reasons::phrases::{comma_list, count, word};
use crate::reasons::{Telling, Told, NO_REASON};
use crate::season::Season;
use crate::steps::{write_step, STEP_LENGTH};
use crate::{read, Written};
use reference::report::INPUT_SIZE;
use reference::table::{read_front, Table};
use reference::Refusal;

/// Which steps are told.
#[derive(Clone, Copy, PartialEq)]
pub enum Which {
    All,
    Refused,
    Last,
}

/// Whether an input is text. Bytes begin with a table, whose first byte is 0 or
/// whose fifth is the number of periods, 1 to 8: no text has such a byte.
pub fn is_text(input: &[u8]) -> bool {
    !input.is_empty() && input.iter().all(|byte| *byte >= b' ' || b"\t\n\r".contains(byte))
}

/// A rehearsal written as text, told. An error names its line.
pub fn explain_text(text: &str, which: Which) -> Result<String, String> {
    let written = read(text)?;
    Ok(explain(&written.bytes, Some(&written), which))
}

/// A rehearsal in bytes, told.
pub fn explain_bytes(input: &[u8], which: Which) -> String {
    explain(input, None, which)
}

fn explain(input: &[u8], written: Option<&Written>, which: Which) -> String {
    let mut lines = Vec::new();
    match front(input) {
        Ok((table, end)) => {
            if which == Which::All {
                lines.push(told_table(Season::of(input), &table));
            }
            lines.extend(told_steps(&table, &input[end..], written, which));
        }
        Err(refusal) => lines.extend(told_refusal(input, written, refusal)),
    }
    lines.push(String::new());
    lines.join("\n")
}

/// The table at the front of an input, and where it ends.
fn front(input: &[u8]) -> Result<(Table, usize), Refusal> {
    match input.len() > INPUT_SIZE {
        true => Err(Refusal::Input),
        false => read_front(input),
    }
}

/// The input that is refused: where, and why.
fn told_refusal(input: &[u8], written: Option<&Written>, refusal: Refusal) -> Vec<String> {
    let fault = why(input, refusal);
    let place = fault.as_ref().map(|fault| &fault.place);
    let source = written.and_then(|written| match place? {
        Place::Input => None,
        Place::Header => Some(&written.header),
        Place::Weights => written.weights.as_ref(),
        Place::Item(k) => written.items.get(*k),
    });
    let head = match (source, place) {
        (Some(source), _) => format!("line {}: {}", source.line, source.words),
        (None, Some(Place::Input)) => "input".to_string(),
        (None, _) => "table".to_string(),
    };
    let fact = fault.map_or(NO_REASON.to_string(), |Fault { fact, .. }| fact);
    vec![head, format!("    refused {} {}: {fact}", refusal.number(), word(refusal))]
}

fn told_steps(table: &Table, steps: &[u8], written: Option<&Written>, which: Which) -> Vec<String> {
    let mut telling = Telling::on(table);
    let mut lines = Vec::new();
    let (all, mut refused) = (steps.chunks(STEP_LENGTH).len(), 0);
    for (k, bytes) in steps.chunks(STEP_LENGTH).enumerate() {
        let told = telling.tell(bytes);
        refused += told.refusal.is_some() as usize;
        if is_told(which, &told, k + 1 == all) {
            lines.push(head(k, bytes, written));
            lines.push(format!("    {}", told.line()));
        }
    }
    if which != Which::Last {
        lines.push(format!("{}: {} done, {refused} refused", count(all, "step"), all - refused));
    }
    lines
}

fn is_told(which: Which, told: &Told, is_last: bool) -> bool {
    match which {
        Which::All => true,
        Which::Refused => told.refusal.is_some(),
        Which::Last => is_last,
    }
}

fn told_table(season: Season, table: &Table) -> String {
    let honest = match table.honest.is_empty() {
        true => "none".to_string(),
        false => comma_list(&table.honest),
    };
    let [peers, periods, items] =
        [(table.n, "peer"), (table.periods, "period"), (table.m(), "item")]
            .map(|(number, what)| count(number, what));
    let weights = match season.has_weights() {
        true => {
            format!("weights {}, {} in all; ", comma_list(&table.weights), table.whole_weight())
        }
        false => String::new(),
    };
    let (start, t) = (season.table(), table.t);
    format!("{start}: {peers}, honest {honest}; {weights}threshold {t}; {periods}, {items}")
}

/// The step with its line and number.
fn head(k: usize, bytes: &[u8], written: Option<&Written>) -> String {
    match written {
        Some(written) => {
            let source = &written.steps[k];
            format!("line {}, step {}: {}", source.line, k + 1, source.words)
        }
        None => format!("step {}: {}", k + 1, write_step(bytes)),
    }
}
