//! The words for numbers, lists, items and entries.

use reference::state::{Board, Entry};
use reference::table::Table;
use reference::Refusal;

/// The word of a refusal in the documents.
pub fn word(refusal: Refusal) -> &'static str {
    match refusal {
        Refusal::Header => "header",
        Refusal::Pairs => "pairs",
        Refusal::Item => "item",
        Refusal::Twin => "twin",
        Refusal::Form => "form",
        Refusal::Name => "name",
        Refusal::Role => "role",
        Refusal::Down => "down",
        Refusal::Period => "period",
        Refusal::Unknown => "unknown",
        Refusal::Clash => "clash",
        Refusal::Short => "short",
        Refusal::Full => "full",
        Refusal::Input => "input",
        Refusal::Sheet => "sheet",
        Refusal::Given => "given",
        Refusal::Clean => "clean",
    }
}

/// "1, 4"
pub fn comma_list<'a>(numbers: impl IntoIterator<Item = &'a usize>) -> String {
    let words: Vec<String> = numbers.into_iter().map(usize::to_string).collect();
    words.join(", ")
}

/// "items 0 1", "item 0" or "no items"
pub fn item_list<'a>(items: impl IntoIterator<Item = &'a usize>) -> String {
    let words: Vec<String> = items.into_iter().map(usize::to_string).collect();
    match words.len() {
        0 => "no items".to_string(),
        1 => format!("item {}", words[0]),
        _ => format!("items {}", words.join(" ")),
    }
}

/// "1 byte", "2 bytes"
pub fn count(number: usize, what: &str) -> String {
    match number {
        1 => format!("1 {what}"),
        _ => format!("{number} {what}s"),
    }
}

/// "hash of peer 2, period 0, items 0 1"
pub fn entry(entry: &Entry) -> String {
    let signed = |kind, signer, period, board: &Board| {
        format!("{kind} of peer {signer}, period {period}, {}", item_list(board))
    };
    match entry {
        Entry::Hash { signer, period, board } => signed("hash", signer, period, board),
        Entry::Backing { signer, period, board } => signed("backing", signer, period, board),
        Entry::Board { period, board } => {
            format!("board of period {period}, {}", item_list(board))
        }
    }
}

/// "item 0 (vote on ballot 7)", "item 1 (audit of ballot 7 from place 5)"
pub fn item(table: &Table, number: usize) -> String {
    let item = &table.items[number];
    let ballot = item.ballot;
    // From the kind on.
    let told = match item.text()[4..] {
        [1, ..] => format!("vote on ballot {ballot}"),
        [2, place] => format!("audit of ballot {ballot} from place {place}"),
        [2, ..] => format!("audit of ballot {ballot}"),
        _ => format!("cancellation of ballot {ballot}"),
    };
    format!("item {number} ({told})")
}
