//! The refusals that several ops share, and what they look at.

use crate::state::{Entry, State, MOST_ENTRIES};
use crate::table::Table;
use crate::Done;

pub const FORM: u8 = 5;
pub const NAME: u8 = 6;
pub const ROLE: u8 = 7;
pub const DOWN: u8 = 8;
pub const PERIOD: u8 = 9;
pub const UNKNOWN: u8 = 10;
pub const CLASH: u8 = 11;
pub const SHORT: u8 = 12;
pub const FULL: u8 = 13;
pub const STATE: u8 = 14;
pub const SHEET: u8 = 16;
pub const GIVEN: u8 = 17;
pub const CLEAN: u8 = 18;

pub fn refuse_if(bad: bool, refusal: u8) -> Done {
    if bad {
        Err(refusal)
    } else {
        Ok(())
    }
}

impl Table {
    /// A peer's number from 0.
    pub fn peer(&self, j: u8) -> Result<usize, u8> {
        let at = j.wrapping_sub(1);
        refuse_if(at >= self.n, NAME)?;
        Ok(at as usize)
    }

    pub fn period(&self, p: u8) -> Result<usize, u8> {
        refuse_if(p >= self.periods, NAME)?;
        Ok(p as usize)
    }

    pub fn item(&self, i: u8) -> Result<usize, u8> {
        refuse_if(i >= self.m, NAME)?;
        Ok(i as usize)
    }

    pub fn need_honest(&self, j: usize) -> Done {
        refuse_if(self.honest >> j & 1 == 0, ROLE)
    }

    pub fn need_dishonest(&self, j: usize) -> Done {
        refuse_if(self.honest >> j & 1 == 1, ROLE)
    }

    pub fn need_threshold(&self, set: u16) -> Done {
        refuse_if(!self.is_quorum(set), SHORT)
    }

    /// The items whose signers weigh t.
    pub fn board(&self, row: [u16; 64]) -> u64 {
        let bit = |i: usize| (self.is_quorum(row[i]) as u64) << i;
        (0..64).fold(0, |board, i| board | bit(i))
    }
}

impl State {
    pub fn need_up(&self, j: usize) -> Done {
        refuse_if(self.down[j] != 0, DOWN)
    }

    pub fn need_open(&self, table: &Table, j: usize) -> Result<usize, u8> {
        refuse_if(self.open[j] >= table.periods, PERIOD)?;
        Ok(self.open[j] as usize)
    }

    pub fn need_closed(&self, j: usize, period: usize) -> Done {
        refuse_if(period >= self.open[j] as usize, PERIOD)
    }

    pub fn need_posted(&self, items: u64) -> Done {
        refuse_if(items & !self.posted != 0, UNKNOWN)
    }

    /// Peer j's items in a period whose signers weigh t.
    pub fn board(&self, table: &Table, j: usize, period: usize) -> u64 {
        table.board(self.databases[j][period])
    }

    /// Enters an entry, if it is not there.
    pub fn enter(&mut self, entry: Entry) -> Done {
        if self.entries().contains(&entry) {
            return Ok(());
        }
        let count = self.count as usize;
        refuse_if(count == MOST_ENTRIES, FULL)?;
        self.bag[count] = entry;
        self.count += 1;
        Ok(())
    }

    /// An entry of the bag, if it is of the kind.
    pub fn entry(&self, e: u8, kind: u8) -> Result<Entry, u8> {
        match self.entries().get(e as usize) {
            Some(entry) if entry.kind == kind => Ok(*entry),
            _ => Err(UNKNOWN),
        }
    }
}
