//! What each op asks beyond the peer's name and role, and what it does, in place.

use super::state::{Hash, State, MOST_HEARD};
use super::{Sent, ROW};
use crate::form::Fields;
use crate::guards::*;
use crate::table::Table;
use crate::valid::{and, first, of_seats};
use crate::Done;

/// An honest peer of a table, counted from 0, with a valid state.
pub struct Peer<'a> {
    pub table: &'a Table,
    pub j: usize,
    pub state: &'a mut State,
}

impl Peer<'_> {
    pub fn hand(&mut self, message: &Fields) -> Done {
        let item = self.table.item(message.item)?;
        self.need_up()?;
        let p = self.need_open()?;
        let held = self.state.held;
        let all = held.iter().fold(0, |all, set| all | set);
        refuse_if(all & self.table.clashes(item) != 0, CLASH)?;
        self.state.held[p] |= 1 << item;
        Ok(())
    }

    pub fn sign(&mut self, step: &Fields) -> Result<Sent, u8> {
        let item = self.table.item(step.item)?;
        self.need_up()?;
        let p = self.need_open()?;
        refuse_if(self.state.held[p] >> item & 1 == 0, UNKNOWN)?;
        self.state.database[p][item] |= 1 << self.j;
        Ok(Sent { op: step.op, period: p as u8, item: step.item, board: 0 })
    }

    pub fn take(&mut self, message: &Fields) -> Done {
        let signer = self.table.peer(message.other)?;
        let (period, item) = (self.table.period(message.period)?, self.table.item(message.item)?);
        self.need_up()?;
        refuse_if(message.period > self.state.open, PERIOD)?;
        self.state.database[period][item] |= 1 << signer;
        Ok(())
    }

    pub fn share(&mut self, step: &Fields) -> Result<Sent, u8> {
        let item = self.table.item(step.item)?;
        self.need_up()?;
        let p = self.need_open()?;
        refuse_if((0..p).any(|q| self.state.shared[q] >> item & 1 == 1), GIVEN)?;
        self.table.need_threshold(self.state.database[p][item])?;
        self.state.shared[p] |= 1 << item;
        Ok(Sent { op: step.op, period: p as u8, item: step.item, board: 0 })
    }

    pub fn close(&mut self) -> Result<Sent, u8> {
        self.need_up()?;
        self.need_open()?;
        self.state.open += 1;
        Ok(Sent::default())
    }

    /// The other's signer sets of the period stand behind the message, high byte first.
    pub fn fetch(&mut self, message: &Fields, sets: &[u8; ROW]) -> Done {
        self.table.peer(message.other)?;
        let period = self.table.period(message.period)?;
        let mut others = *sets;
        others.as_chunks_mut::<2>().0.iter_mut().for_each(|set| set.reverse());
        refuse_if(others != and(others, of_seats(self.table)), NAME)?;
        self.need_up()?;
        self.need_closed(message.period)?;
        let mut row = self.state.database[period];
        for (set, other) in row.iter_mut().zip(others.as_chunks::<2>().0) {
            *set |= u16::from_le_bytes(*other);
        }
        self.state.database[period] = row;
        Ok(())
    }

    pub fn hash(&mut self, step: &Fields) -> Result<Sent, u8> {
        let period = self.table.period(step.period)?;
        self.need_up()?;
        self.need_closed(step.period)?;
        Ok(Sent { op: step.op, period: step.period, item: 0, board: self.board(period) })
    }

    pub fn hear(&mut self, message: &Fields) -> Done {
        let &Fields { other, period, board, .. } = message;
        self.table.peer(other)?;
        self.table.period(period)?;
        refuse_if(board & !first(self.table.m) != 0, NAME)?;
        self.need_up()?;
        self.need_closed(period)?;
        let hash = Hash { signer: other, period, board };
        if self.state.heard().contains(&hash) {
            return Ok(());
        }
        let count = self.state.count as usize;
        refuse_if(count == MOST_HEARD, FULL)?;
        self.state.hashes[count] = hash;
        self.state.count += 1;
        Ok(())
    }

    pub fn back(&mut self) -> Result<Sent, u8> {
        self.need_up()?;
        let period = self.state.next;
        refuse_if(period == self.state.open, PERIOD)?;
        let board = self.board(period as usize);
        let mut signers = 0;
        for hash in self.state.heard() {
            let fits = hash.period == period && hash.board == board;
            signers |= (fits as u16) << (hash.signer - 1);
        }
        self.table.need_threshold(signers)?;
        self.state.next += 1;
        Ok(Sent { op: 11, period, item: 0, board })
    }

    /// 17 down, 18 up.
    pub fn set_down(&mut self, step: &Fields) -> Result<Sent, u8> {
        self.state.down = (step.op == 17) as u8;
        Ok(Sent::default())
    }

    fn need_up(&self) -> Done {
        refuse_if(self.state.down != 0, DOWN)
    }

    fn need_open(&self) -> Result<usize, u8> {
        refuse_if(self.state.open >= self.table.periods, PERIOD)?;
        Ok(self.state.open as usize)
    }

    fn need_closed(&self, period: u8) -> Done {
        refuse_if(period >= self.state.open, PERIOD)
    }

    /// The items of a period whose signers weigh t.
    fn board(&self, period: usize) -> u64 {
        self.table.board(self.state.database[period])
    }
}
