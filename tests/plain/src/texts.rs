//! Pairs of offset and length behind a head, and the items' texts that they
//! mark out: a table has them, and a sheet.

use crate::differ::all_differ;
use std::ops::RangeInclusive;

pub const PAIR: usize = 4;

/// The items' texts.
pub type Texts<'a> = [&'a [u8]; 64];

/// Each item's text, and where the last ends, if each begins where the one
/// before it ends.
pub fn read_texts<'a>(bytes: &'a [u8], head: usize, m: u8, texts: &mut Texts<'a>) -> Option<usize> {
    let mut end = head + PAIR * m as usize;
    for (pair, text) in bytes.get(head..end)?.as_chunks::<PAIR>().0.iter().zip(texts) {
        let [start, length] = numbers(*pair);
        if start != end {
            return None;
        }
        end += length;
        *text = bytes.get(start..end)?;
    }
    Some(end)
}

/// Offset and length of item k, where there is such a pair.
pub fn place(bytes: &[u8], head: usize, k: usize) -> [usize; 2] {
    numbers(bytes[head + PAIR * k..][..PAIR].try_into().unwrap())
}

fn numbers([a, b, c, d]: [u8; PAIR]) -> [usize; 2] {
    [[a, b], [c, d]].map(|number| u16::from_be_bytes(number) as usize)
}

/// Whether length and kind are an item's, where audits may have these lengths.
pub fn is_item(text: &[u8], audits: RangeInclusive<usize>) -> bool {
    match (text.get(4), text.len()) {
        (Some(1), 6..=37) | (Some(3), 5) => true,
        (Some(2), length) => audits.contains(&length),
        _ => false,
    }
}

/// Whether the texts of items all differ.
pub fn no_twins(texts: &[&[u8]]) -> bool {
    let twins = |i: usize, k: usize| texts[i] == texts[k];
    all_differ::<128>(texts.len(), |k| hash(texts[k]), twins)
}

pub fn word(bytes: &[u8], at: usize) -> u32 {
    u32::from_be_bytes(bytes[at..at + 4].try_into().unwrap())
}

/// From the ballot number, the last four bytes and the length.
fn hash(item: &[u8]) -> u64 {
    let (first, last) = (word(item, 0), word(item, item.len() - 4));
    ((first as u64) << 32 | last as u64) ^ (item.len() as u64) << 48
}
