//! Pairs of offset and length, and the texts of items that they mark out: in a
//! table behind its header and weights, in a sheet behind its two bytes.

use crate::reasons::phrases::count;
use crate::season::{Season, HEADER_LENGTH};
use crate::sheet::HEAD_LENGTH;

pub const PAIR_LENGTH: usize = 4;

/// The pairs that stand in some bytes.
pub struct Pairs<'a> {
    bytes: &'a [u8],
    /// What the bytes are, in a word.
    whole: &'static str,
    /// Where the first pair stands.
    start: usize,
    count: usize,
}

/// What is wrong with pairs: of which item, if it is one's, and the fact.
pub struct Fault {
    pub item: Option<usize>,
    pub fact: String,
}

impl<'a> Pairs<'a> {
    /// Of a table at the front of an input that has a header.
    pub fn of_input(bytes: &'a [u8]) -> Pairs<'a> {
        let season = Season::of(bytes);
        let header = &bytes[season.front().len()..];
        let (start, count) = (season.pairs_start(header[0]), header[HEADER_LENGTH - 1] as usize);
        Pairs { bytes, whole: "input", start, count }
    }

    /// Of a sheet that has a period and a count.
    pub fn of_sheet(bytes: &'a [u8]) -> Pairs<'a> {
        Pairs { bytes, whole: "sheet", start: HEAD_LENGTH, count: bytes[1] as usize }
    }

    /// The texts, one behind the other, and where the last one ends; or what is
    /// wrong: cut short, or an offset that is not the end before it.
    pub fn texts(&self) -> Result<(Vec<&'a [u8]>, usize), Fault> {
        let first = self.start + PAIR_LENGTH * self.count;
        if self.bytes.len() < first {
            let told = format!("the pairs of {} end", count(self.count, "item"));
            return Err(self.cut_short(None, &told, first));
        }
        let mut end = first;
        for k in 0..self.count {
            let (offset, length) = self.pair(k);
            if offset != end {
                return Err(misplaced(k, offset, end));
            }
            end = offset + length;
        }
        if self.bytes.len() < end {
            let last = self.count - 1;
            return Err(self.cut_short(Some(last), &format!("item {last} ends"), end));
        }
        let text = |(offset, length)| &self.bytes[offset..offset + length];
        Ok(((0..self.count).map(|k| text(self.pair(k))).collect(), end))
    }

    /// Offset and length of item k.
    fn pair(&self, k: usize) -> (usize, usize) {
        let at = self.start + PAIR_LENGTH * k;
        let number = |at: usize| u16::from_be_bytes([self.bytes[at], self.bytes[at + 1]]) as usize;
        (number(at), number(at + 2))
    }

    fn cut_short(&self, item: Option<usize>, told: &str, end: usize) -> Fault {
        let (whole, length) = (self.whole, self.bytes.len());
        Fault { item, fact: format!("{told} at byte {end}, but the {whole} at byte {length}") }
    }
}

/// Item k, which does not stand where the one before it ends.
fn misplaced(k: usize, offset: usize, end: usize) -> Fault {
    let before = match k {
        0 => "the pairs end".to_string(),
        _ => format!("item {} ends", k - 1),
    };
    let fact = format!("item {k} has offset {offset}, but {before} at byte {end}");
    Fault { item: Some(k), fact }
}
