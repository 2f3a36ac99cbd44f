//! A rehearsal as text, as bytes, told step by step, and cut down; a sheet as text.
//! README.md has the grammar.
//!
//! - `words`, `table`, `steps`: the lines of the text, and their bytes
//! - `season`: what a table's first bytes tell, and what depends on it
//! - `pairs`: offsets and lengths, and the texts of items that they mark out
//! - `written`: a rehearsal read from text, with the place of each thing
//! - `names`: names that a table does not have
//! - `reasons`: why a step got its answer, and what it brought
//! - `explain`: the telling, line by line
//! - `keep`: the lines that are left of a rehearsal that was cut down
//! - `sheet`: a sheet's lines, or what makes bytes no sheet
//!
//! Nothing is judged on the way from text to bytes but what cannot be laid out
//! at all: a threshold or a weight out of range, a vote without preferences or a
//! peer that does not exist can be written, and the engine gives its number.

pub mod explain;
pub mod keep;
mod names;
mod pairs;
pub mod reasons;
mod season;
mod sheet;
mod steps;
mod table;
mod words;
mod written;

pub use sheet::sheet;
pub use written::{read, Source, Written};

/// The bytes of a rehearsal written as text. An error names its line.
pub fn bytes(text: &str) -> Result<Vec<u8>, String> {
    Ok(read(text)?.bytes)
}

/// The text of a rehearsal in bytes. An error says what the table lacks.
pub fn text(input: &[u8]) -> Result<String, String> {
    let (mut lines, end) = table::write_table(input)?;
    for step in input[end..].chunks(steps::STEP_LENGTH) {
        lines.push(steps::write_step(step));
    }
    Ok(lines.join("\n") + "\n")
}

/// Bytes as two hexadecimal digits each, every one after a blank.
fn hexadecimal(bytes: &[u8]) -> String {
    bytes.iter().map(|byte| format!(" {byte:02X}")).collect()
}
