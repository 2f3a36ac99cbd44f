//! A sheet: a published board that is read without the table. It has the period
//! and the count in a byte each, pairs, and the items' texts. The judging here
//! is no engine's, neither the proved nor the independent one's.

use crate::pairs::Pairs;
use crate::reasons::items::{no_item, twin};
use crate::reasons::phrases::count;
use crate::season::Season;
use crate::table::write_item;

/// The period and the count.
pub const HEAD_LENGTH: usize = 2;
const LAST_PERIOD: u8 = 7;
const MOST_ITEMS: u8 = 64;
/// It does not say of which season its table is; the third has the second's audits.
const SEASONS: [Season; 2] = [Season::First, Season::Second];

/// The text of a sheet: its period, then a line for each item. An error says
/// what makes the bytes no sheet.
pub fn sheet(bytes: &[u8]) -> Result<String, String> {
    let texts = texts(bytes).map_err(|fact| format!("no sheet: {fact}"))?;
    let period = format!("period {}\n", bytes[0]);
    Ok(texts.into_iter().fold(period, |lines, text| lines + &write_item(text) + "\n"))
}

/// The texts of a sheet's items.
fn texts(bytes: &[u8]) -> Result<Vec<&[u8]>, String> {
    head(bytes)?;
    let (texts, end) = Pairs::of_sheet(bytes).texts().map_err(|fault| fault.fact)?;
    if end < bytes.len() {
        let last = if texts.is_empty() { "a count of 0" } else { "the last item" };
        return Err(format!("{} after {last}", count(bytes.len() - end, "byte")));
    }
    let items = texts.iter().enumerate();
    let wrong = items.filter_map(|(k, text)| no_item(k, text, &SEASONS)).next();
    match wrong.or_else(|| Some(twin(&texts)?.1)) {
        Some(fact) => Err(fact),
        None => Ok(texts),
    }
}

/// The period and the count are there, and in range.
fn head(bytes: &[u8]) -> Result<(), String> {
    if bytes.starts_with(b"refused ") {
        let said = String::from_utf8_lossy(bytes);
        return Err(format!("it says \"{}\"", said.lines().next().unwrap_or_default()));
    }
    match bytes[..] {
        [period, ..] if period > LAST_PERIOD => {
            Err(format!("period {period}, but periods are 0 to {LAST_PERIOD}"))
        }
        [_, items, ..] if items > MOST_ITEMS => {
            Err(format!("{items} items, but a sheet has at most {MOST_ITEMS}"))
        }
        [_, _, ..] => Ok(()),
        _ => {
            let least = "but a sheet has at least 2: period and count";
            Err(format!("{}, {least}", count(bytes.len(), "byte")))
        }
    }
}
