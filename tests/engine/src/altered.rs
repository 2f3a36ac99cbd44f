//! Tables and sheets with other texts for their items: by these, engines go wrong
//! on purpose, and each must be found.

use inputs::tables::{head, item_count, number, pair_behind};
use reference::pairs::write_pairs;
use reference::sheet::write_sheet;

/// The texts that so many pairs behind a head mark out; none if these are no pairs.
fn texts(bytes: &[u8], head: usize, count: usize) -> Option<Vec<Vec<u8>>> {
    let text = |k| {
        let at = pair_behind(head, k);
        let pair = bytes.get(at..at + 4)?;
        let (offset, length) = (number(pair, 0), number(pair, 2));
        Some(bytes.get(offset..offset + length)?.to_vec())
    };
    (0..count).map(text).collect()
}

/// The same with some of them altered; none if no text is another then.
fn altered(
    bytes: &[u8],
    head: usize,
    count: usize,
    alter: impl Fn(&mut Vec<u8>),
) -> Option<Vec<Vec<u8>>> {
    let old = texts(bytes, head, count)?;
    let mut new = old.clone();
    new.iter_mut().for_each(alter);
    (new != old).then_some(new)
}

/// The table with texts altered and its pairs in order; as it is if none is.
pub fn table_with(table: &[u8], alter: impl Fn(&mut Vec<u8>)) -> Vec<u8> {
    let head = head(table);
    match altered(table, head, item_count(table), alter) {
        Some(texts) => [&table[..head], &write_pairs(head, &texts)].concat(),
        None => table.to_vec(),
    }
}

/// The sheet with texts altered, likewise.
pub fn sheet_with(sheet: &[u8], alter: impl Fn(&mut Vec<u8>)) -> Vec<u8> {
    let count = sheet.get(1).copied().unwrap_or(0) as usize;
    match altered(sheet, 2, count, alter) {
        Some(texts) => write_sheet(sheet[0], &texts),
        None => sheet.to_vec(),
    }
}

/// Whether a text is an audit with so many bytes behind its kind.
pub fn is_audit(text: &[u8], more: usize) -> bool {
    text.len() == 5 + more && text[4] == 2
}

/// What is wrong must have been found at least once.
pub fn must_be_found(name: &str, times: usize) {
    println!("{name}: found {times} times");
    assert!(times > 0, "{name}: not found");
}
