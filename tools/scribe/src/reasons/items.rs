//! What is wrong with the texts of items.

use super::phrases::count;
use crate::season::Season;

/// Why the text of item k is no item of these seasons: its length or its kind.
pub fn no_item(k: usize, text: &[u8], seasons: &[Season]) -> Option<String> {
    let start = format!("item {k}");
    let more = || count(text.len() - 5, "byte");
    let is_audit = |length| seasons.iter().any(|season| season.audit_length() == length);
    let told = match (text.get(4), text.len()) {
        (None, length) => {
            let least = "but an item has at least 5: ballot number and kind";
            format!("{start} has {}, {least}", count(length, "byte"))
        }
        (Some(1), 6..=37) | (Some(3), 5) => return None,
        (Some(2), length) if is_audit(length) => return None,
        (Some(1), _) => format!("{start} is a vote with {} of preferences, not 1 to 32", more()),
        (Some(2), _) => {
            format!("{start} is an audit with {} after its kind, {}", more(), audits(seasons))
        }
        (Some(3), _) => {
            format!("{start} is a cancellation with {} after its kind, not none", more())
        }
        (Some(kind), _) => {
            format!("{start} has kind {kind}, not 1 (vote), 2 (audit) or 3 (cancellation)")
        }
    };
    Some(told)
}

/// What the audits of these seasons have after their kind.
fn audits(seasons: &[Season]) -> &'static str {
    match seasons {
        [Season::First] => "but in the first season it has none",
        [Season::Second] => "but in season 2 it has 1, its place",
        [Season::Third] => "but in season 3 it has 1, its place",
        _ => "but it has none, or 1, its place",
    }
}

/// The first item that is the same as one before it, and the fact.
pub fn twin(texts: &[&[u8]]) -> Option<(usize, String)> {
    let same = |k: usize| texts[..k].iter().position(|text| *text == texts[k]);
    let (k, first) = (0..texts.len()).find_map(|k| Some((k, same(k)?)))?;
    Some((k, format!("items {first} and {k} are the same")))
}
