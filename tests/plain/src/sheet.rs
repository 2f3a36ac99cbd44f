//! A period's board as a sheet, written and read.

use crate::guards::{refuse_if, NAME, SHEET, UNKNOWN};
use crate::state::{State, BOARD};
use crate::texts::{is_item, no_twins, place, read_texts, Texts, PAIR};
use crate::{answer, valid_table, Done};
use std::ops::RangeInclusive;

/// The period and the count.
const HEAD: usize = 2;

/// The lengths of audits, of either season.
const AUDITS: RangeInclusive<usize> = 5..=6;

/// Writes the sheet of a period's board, and its length. What is refused leaves
/// both as they were.
pub fn write_sheet(
    table: &[u8],
    state: &[u8],
    period: u8,
    sheet: &mut [u8],
    length: &mut usize,
) -> u8 {
    answer(write(table, state, period, sheet).map(|end| *length = end))
}

fn write(table: &[u8], state: &[u8], period: u8, sheet: &mut [u8]) -> Result<usize, u8> {
    let valid = valid_table(table, state)?;
    valid.period(period)?;
    let head = valid.season.head;
    let mut boards = State::of(state).entries().iter().filter(|entry| entry.kind == BOARD);
    let board = boards.find(|entry| entry.period == period).ok_or(UNKNOWN)?.board;
    let count = board.count_ones() as usize;
    let (mut at, mut end) = (HEAD, HEAD + PAIR * count);
    let lengths = items(board).map(|item| place(table, head, item)[1]);
    refuse_if(end + lengths.sum::<usize>() > sheet.len(), SHEET)?;
    sheet[..HEAD].copy_from_slice(&[period, count as u8]);
    for item in items(board) {
        let [offset, length] = place(table, head, item);
        sheet[at..at + 2].copy_from_slice(&(end as u16).to_be_bytes());
        sheet[at + 2..at + PAIR].copy_from_slice(&(length as u16).to_be_bytes());
        sheet[end..end + length].copy_from_slice(&table[offset..offset + length]);
        (at, end) = (at + PAIR, end + length);
    }
    Ok(end)
}

/// The items of a board, from the first on.
fn items(mut board: u64) -> impl Iterator<Item = usize> {
    std::iter::from_fn(move || {
        let item = board.trailing_zeros() as usize;
        board &= board.wrapping_sub(1);
        (item < 64).then_some(item)
    })
}

/// Whether the bytes are a sheet: 0 or 16.
pub fn check_sheet(sheet: &[u8]) -> u8 {
    answer(need_sheet(sheet))
}

fn need_sheet(sheet: &[u8]) -> Done {
    let &[period, count, ..] = sheet else {
        return Err(SHEET);
    };
    refuse_if(period >= 8 || count > 64, SHEET)?;
    let mut texts: Texts = [&[]; 64];
    refuse_if(read_texts(sheet, HEAD, count, &mut texts) != Some(sheet.len()), SHEET)?;
    let texts = &texts[..count as usize];
    let all_items = texts.iter().all(|text| is_item(text, AUDITS));
    refuse_if(!(all_items && no_twins(texts)), SHEET)
}

/// Gives where an item stands. What is refused leaves both as they were.
pub fn sheet_item(sheet: &[u8], item: u8, offset: &mut usize, length: &mut usize) -> u8 {
    answer(find(sheet, item).map(|found| [*offset, *length] = found))
}

fn find(sheet: &[u8], item: u8) -> Result<[usize; 2], u8> {
    need_sheet(sheet)?;
    refuse_if(item >= sheet[1], NAME)?;
    Ok(place(sheet, HEAD, item as usize))
}
