//! The sheet of document 02's P2: a published board that is read without the
//! table. A period, a count, pairs and the items' texts.

use crate::pairs::{last_end, read_pairs, write_pairs, Pair};
use crate::refusals::{name_period, refuse_if};
use crate::report::{refused, run, INPUT_SIZE};
use crate::state::State;
use crate::table::{read_items, Item, Table, MOST_ITEMS, MOST_PERIODS};
use crate::Refusal;

/// The period and the count.
const HEAD_LENGTH: usize = 2;

/// What a sheet says.
#[derive(Clone, Debug, PartialEq, Eq)]
pub struct Sheet {
    pub period: usize,
    /// In the order in which they stand.
    pub items: Vec<Item>,
    /// Where each of them stands.
    pub pairs: Vec<Pair>,
}

impl Sheet {
    /// Where an item stands. 6: a number of the count or above.
    pub fn place(&self, item: usize) -> Result<Pair, Refusal> {
        self.pairs.get(item).copied().ok_or(Refusal::Name)
    }
}

/// The bytes of a sheet. Nothing is checked.
pub fn write_sheet(period: u8, texts: &[Vec<u8>]) -> Vec<u8> {
    [vec![period, texts.len() as u8], write_pairs(HEAD_LENGTH, texts)].concat()
}

/// The sheet of a period's board, its items in table order, for a buffer of so
/// many bytes. 6: a period of P or above. 10: the period has no board; of two,
/// the first in the bag is the period's. 16: the buffer is too short.
pub fn sheet_of_board(
    table: &Table,
    state: &State,
    period: usize,
    room: usize,
) -> Result<Vec<u8>, Refusal> {
    name_period(table, period)?;
    let mut boards = state.boards().into_iter();
    let (_, board) = boards.find(|(q, _)| *q == period).ok_or(Refusal::Unknown)?;
    let texts: Vec<Vec<u8>> = board.iter().map(|item| table.items[*item].text()).collect();
    let bytes = write_sheet(period as u8, &texts);
    refuse_if(bytes.len() > room, Refusal::Sheet)?;
    Ok(bytes)
}

/// 16: bytes that are no sheet.
pub fn read_sheet(bytes: &[u8]) -> Result<Sheet, Refusal> {
    refuse_if(bytes.len() < HEAD_LENGTH, Refusal::Sheet)?;
    let (period, count) = (bytes[0] as usize, bytes[1] as usize);
    refuse_if(period >= MOST_PERIODS || count > MOST_ITEMS, Refusal::Sheet)?;
    let pairs = read_pairs(bytes, HEAD_LENGTH, count).ok_or(Refusal::Sheet)?;
    refuse_if(last_end(&pairs, HEAD_LENGTH) != bytes.len(), Refusal::Sheet)?;
    // It takes audits of either length. What is wrong with an item, or with two, is
    // the sheet's fault here.
    let items = read_items(bytes, &pairs, |_| true).map_err(|_| Refusal::Sheet)?;
    Ok(Sheet { period, items, pairs })
}

/// Where an item stands in bytes that may be a sheet: 16, then 6.
pub fn item_of_sheet(bytes: &[u8], item: usize) -> Result<Pair, Refusal> {
    read_sheet(bytes)?.place(item)
}

/// The whole output of the program `sheet`: its input is a period in one byte,
/// which counts towards the most, and a rehearsal.
pub fn rehearsed_sheet(input: &[u8]) -> Vec<u8> {
    written(input).unwrap_or_else(refused)
}

/// 15, 1 to 4, 6, 10. No bytes at all are a header cut short.
fn written(input: &[u8]) -> Result<Vec<u8>, Refusal> {
    refuse_if(input.len() > INPUT_SIZE, Refusal::Input)?;
    let (period, rehearsal) = input.split_first().ok_or(Refusal::Header)?;
    let run = run(rehearsal)?;
    sheet_of_board(&run.table, &run.state, *period as usize, usize::MAX)
}
