//! The ballot table: refusals 1 to 4, which items clash, and what peers weigh.

use crate::guards::refuse_if;
use crate::texts::{is_item, no_twins, read_texts, word, Texts};

const CANCELLATION: u8 = 3;

/// What differs between the seasons: where the pairs begin, and an audit's length.
#[derive(Clone, Copy)]
pub struct Season {
    pub head: usize,
    audit: usize,
}

const OLD: Season = Season { head: 6, audit: 5 };
const NEW: Season = Season { head: 8, audit: 6 };

/// The lowest bit of each of four sets of peers.
const EACH: u64 = 0x0001_0001_0001_0001;

pub struct Table {
    pub season: Season,
    pub n: u8,
    pub t: u8,
    pub honest: u16,
    pub periods: u8,
    pub m: u8,
    /// The peers that weigh 1 or more, those that weigh 2 or more, and so on to 4:
    /// four sets of 16 bits, from the lowest on.
    weights: u64,
    ballots: [u32; 64],
    kinds: [u8; 64],
}

impl Table {
    /// A table that is all of the bytes.
    pub fn whole(bytes: &[u8]) -> Result<Table, u8> {
        Ok(Table::read(bytes, |end| end == bytes.len())?.0)
    }

    /// The table at the front of an input, and where it ends.
    pub fn front(input: &[u8]) -> Result<(Table, usize), u8> {
        Table::read(input, |_| true)
    }

    fn read(bytes: &[u8], may_end: impl Fn(usize) -> bool) -> Result<(Table, usize), u8> {
        let mut table = header(bytes)?;
        let mut texts: Texts = [&[]; 64];
        let end = read_texts(bytes, table.season.head, table.m, &mut texts).ok_or(2)?;
        if !may_end(end) {
            return Err(2);
        }
        table.read_items(&texts[..table.m as usize])?;
        Ok((table, end))
    }

    /// 3 for any item, then 4 for any two.
    fn read_items(&mut self, texts: &[&[u8]]) -> Result<(), u8> {
        let audit = self.season.audit;
        for (k, text) in texts.iter().enumerate() {
            if !is_item(text, audit..=audit) {
                return Err(3);
            }
            self.ballots[k] = word(text, 0);
            self.kinds[k] = text[4];
        }
        if no_twins(texts) {
            Ok(())
        } else {
            Err(4)
        }
    }

    /// The items that clash with an item, as a set of bits: all others of its ballot
    /// but cancellations. Two audits of one ballot are twins or name two places.
    pub fn clashes(&self, item: usize) -> u64 {
        let ballot = self.ballots[item];
        if self.kinds[item] == CANCELLATION {
            return 0;
        }
        let mut mask = 0;
        for k in 0..self.m as usize {
            let clash = self.ballots[k] == ballot && self.kinds[k] != CANCELLATION;
            mask |= (clash as u64) << k;
        }
        mask & !(1 << item)
    }

    /// Whether the peers of a set weigh t together. Without weights they are counted.
    pub fn is_quorum(&self, set: u16) -> bool {
        let weight = if self.weights >> 16 == 0 {
            set.count_ones()
        } else {
            let of_each = EACH * set as u64;
            (of_each & self.weights).count_ones()
        };
        weight >= self.t as u32
    }

    /// The clash masks of all items.
    pub fn all_clashes(&self) -> [u64; 64] {
        std::array::from_fn(|k| if k < self.m as usize { self.clashes(k) } else { 0 })
    }
}

/// The season, the fields and the weights. A 0 without a 2 or 3 behind it stands where
/// n does, and is out of range.
#[inline]
fn header(bytes: &[u8]) -> Result<Table, u8> {
    let (mut season, fields, weighted) = match bytes {
        [0, 2, fields @ ..] => (NEW, fields, false),
        [0, 3, fields @ ..] => (NEW, fields, true),
        _ => (OLD, bytes, false),
    };
    let &[n, t, high, low, periods, m, ref rest @ ..] = fields else {
        return Err(1);
    };
    let honest = u16::from_be_bytes([high, low]);
    let good =
        (1..=16).contains(&n) && honest as u32 >> n == 0 && (1..=8).contains(&periods) && m <= 64;
    refuse_if(!good, 1)?;
    let mut weights = (1 << n) - 1;
    if weighted {
        season.head += n as usize;
        weights = rest.get(..n as usize).and_then(read_weights).ok_or(1)?;
    }
    let all = weights.count_ones() as u8;
    refuse_if(!(2 * all / 3 + 1..=all).contains(&t), 1)?;
    Ok(Table { season, n, t, honest, periods, m, weights, ballots: [0; 64], kinds: [0; 64] })
}

/// The four sets, if each weight is 1 to 4.
fn read_weights(bytes: &[u8]) -> Option<u64> {
    let mut weights = 0;
    for (k, weight) in bytes.iter().enumerate() {
        if !(1..=4).contains(weight) {
            return None;
        }
        weights |= EACH >> (64 - 16 * weight) << k;
    }
    Some(weights)
}
