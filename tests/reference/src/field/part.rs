//! One honest peer's part: what it holds, its database, the shares that it gave, the
//! hashes that it heard, p, c, and whether it is down. Judged and changed by what is
//! brought to it and by what it does itself. Nothing of another peer is here.

use crate::field::message::{read_act, read_message, write_sent, Act, Message, Row, Sent};
use crate::form::STEP_LENGTH;
use crate::refusals::{name_board, name_item, name_peer, name_period};
use crate::refusals::{need_honest, need_quorum, refuse_if, Done};
use crate::table::{Table, MOST_ITEMS, MOST_PERIODS};
use crate::Refusal;
use std::collections::BTreeSet;

/// The most hashes that a peer's box keeps.
pub const MOST_HEARD: usize = 256;

/// A hash as it is told: who signed it, of which period, and the board as bits.
#[derive(Clone, Copy, Debug, PartialEq, Eq, PartialOrd, Ord)]
pub struct Hash {
    pub signer: usize,
    pub period: usize,
    pub board: u64,
}

#[derive(Clone, Debug, PartialEq, Eq)]
pub struct Part {
    pub down: bool,
    /// By period a set of items: bit i is item i.
    pub held: [u64; MOST_PERIODS],
    /// The receipt shares that it gave, likewise.
    pub gave: [u64; MOST_PERIODS],
    /// By period.
    pub database: [Row; MOST_PERIODS],
    /// p, the open period; P: none.
    pub p: usize,
    /// c, the next period to back.
    pub c: usize,
    /// As they came, no two the same.
    pub heard: Vec<Hash>,
}

/// Whether item i is in a set.
fn has(set: u64, i: usize) -> bool {
    set >> i & 1 == 1
}

/// The signers of a set.
pub fn signers(set: u16) -> BTreeSet<usize> {
    (1..=16).filter(|k| set >> (k - 1) & 1 == 1).collect()
}

impl Part {
    pub fn fresh() -> Part {
        Part {
            down: false,
            held: [0; MOST_PERIODS],
            gave: [0; MOST_PERIODS],
            database: [[0; MOST_ITEMS]; MOST_PERIODS],
            p: 0,
            c: 0,
            heard: Vec::new(),
        }
    }

    /// What is brought to the peer of this number: 5, 6 and 7 of the number, then what
    /// the message is refused with.
    pub fn message(&mut self, table: &Table, peer: u8, bytes: &[u8]) -> Done {
        let (named, message) = read_message(bytes)?;
        judge_peer(table, peer as usize, named)?;
        self.bring(table, &message)
    }

    /// What the peer of this number does itself, likewise: what it sends.
    pub fn step(
        &mut self,
        table: &Table,
        peer: u8,
        bytes: &[u8],
    ) -> Result<[u8; STEP_LENGTH], Refusal> {
        let (named, act) = read_act(bytes)?;
        judge_peer(table, peer as usize, named)?;
        Ok(write_sent(named, self.act(table, named, act)?))
    }

    fn bring(&mut self, table: &Table, message: &Message) -> Done {
        match message {
            Message::Hand { item } => self.hand(table, *item),
            Message::Take { signer, period, item } => self.take(table, *signer, *period, *item),
            Message::Fetch { other, period, row } => self.fetch(table, *other, *period, row),
            Message::Hear { hash } => self.hear(table, *hash),
        }
    }

    fn act(&mut self, table: &Table, j: usize, act: Act) -> Result<Sent, Refusal> {
        match act {
            Act::Sign { item } => self.sign(table, j, item),
            Act::Share { item } => self.share(table, item),
            Act::Close => self.close(table),
            Act::Hash { period } => self.hash(table, period),
            Act::Back => self.back(table),
            Act::Down => Ok(self.turn(true)),
            Act::Up => Ok(self.turn(false)),
        }
    }

    /// The peer's own board of a period: the items with t signers, by weight.
    pub fn board(&self, table: &Table, period: usize) -> u64 {
        let is_on = |i: &usize| table.is_quorum(&signers(self.database[period][*i]));
        (0..table.m()).filter(is_on).fold(0, |board, i| board | 1 << i)
    }

    /// 8: the peer is down.
    fn need_up(&self) -> Done {
        refuse_if(self.down, Refusal::Down)
    }

    /// 9: none is open. Else p.
    fn need_open(&self, table: &Table) -> Result<usize, Refusal> {
        refuse_if(self.p == table.periods, Refusal::Period)?;
        Ok(self.p)
    }

    /// 9: the period is not closed.
    fn need_closed(&self, period: usize) -> Done {
        refuse_if(period >= self.p, Refusal::Period)
    }

    /// 2 hand: it holds the item in p. 11: a clash with an item held in any period.
    fn hand(&mut self, table: &Table, item: usize) -> Done {
        name_item(table, item)?;
        self.need_up()?;
        let p = self.need_open(table)?;
        let is_held = |i: &usize| self.held.iter().any(|items| has(*items, *i));
        let clashes = (0..table.m()).filter(is_held).any(|i| table.clash(item, i));
        refuse_if(clashes, Refusal::Clash)?;
        self.held[p] |= 1 << item;
        Ok(())
    }

    /// 3 sign: the signature goes outside, and into its database.
    fn sign(&mut self, table: &Table, j: usize, item: usize) -> Result<Sent, Refusal> {
        name_item(table, item)?;
        self.need_up()?;
        let period = self.need_open(table)?;
        refuse_if(!has(self.held[period], item), Refusal::Unknown)?;
        self.database[period][item] |= 1 << (j - 1);
        Ok(Sent::Signature { period, item })
    }

    /// 4 take: a signature of the open period or a closed one enters the database.
    fn take(&mut self, table: &Table, signer: usize, period: usize, item: usize) -> Done {
        name_peer(table, signer)?;
        name_period(table, period)?;
        name_item(table, item)?;
        self.need_up()?;
        refuse_if(period > self.p, Refusal::Period)?;
        self.database[period][item] |= 1 << (signer - 1);
        Ok(())
    }

    /// 5 share: only for the open period. 17: one was given for the item in an earlier
    /// period. 12: fewer than t signers, by weight.
    fn share(&mut self, table: &Table, item: usize) -> Result<Sent, Refusal> {
        name_item(table, item)?;
        self.need_up()?;
        let period = self.need_open(table)?;
        let given = self.gave[..period].iter().any(|items| has(*items, item));
        refuse_if(given, Refusal::Given)?;
        need_quorum(table, &signers(self.database[period][item]))?;
        self.gave[period] |= 1 << item;
        Ok(Sent::Share { period, item })
    }

    /// 7 close: p rises by one.
    fn close(&mut self, table: &Table) -> Result<Sent, Refusal> {
        self.need_up()?;
        self.p = self.need_open(table)? + 1;
        Ok(Sent::Nothing)
    }

    /// 8 fetch: the other's database of a closed period joins its own. 6: also a set with
    /// a signer above n, or one of an item of m or above.
    fn fetch(&mut self, table: &Table, other: usize, period: usize, row: &Row) -> Done {
        name_peer(table, other)?;
        name_period(table, period)?;
        for (item, set) in row.iter().enumerate().filter(|(_, set)| **set != 0) {
            name_item(table, item)?;
            signers(*set).iter().try_for_each(|signer| name_peer(table, *signer))?;
        }
        self.need_up()?;
        self.need_closed(period)?;
        (0..MOST_ITEMS).for_each(|item| self.database[period][item] |= row[item]);
        Ok(())
    }

    /// 9 hash: its board of a closed period is sent. It keeps nothing of that.
    fn hash(&self, table: &Table, period: usize) -> Result<Sent, Refusal> {
        name_period(table, period)?;
        self.need_up()?;
        self.need_closed(period)?;
        Ok(Sent::Hash { period, board: self.board(table, period) })
    }

    /// 10 hear: it notes a hash of a closed period. 13: a new one, and 256 are there.
    fn hear(&mut self, table: &Table, hash: Hash) -> Done {
        name_peer(table, hash.signer)?;
        name_period(table, hash.period)?;
        name_board(table, hash.board)?;
        self.need_up()?;
        self.need_closed(hash.period)?;
        if !self.heard.contains(&hash) {
            refuse_if(self.heard.len() == MOST_HEARD, Refusal::Full)?;
            self.heard.push(hash);
        }
        Ok(())
    }

    /// 11 back: t different signers, by weight, among the heard hashes have its board of
    /// period c; that backing is sent, c rises by one.
    fn back(&mut self, table: &Table) -> Result<Sent, Refusal> {
        self.need_up()?;
        let period = self.c;
        refuse_if(period == self.p, Refusal::Period)?;
        let board = self.board(table, period);
        let fits = |hash: &&Hash| hash.period == period && hash.board == board;
        need_quorum(table, &self.heard.iter().filter(fits).map(|hash| hash.signer).collect())?;
        self.c += 1;
        Ok(Sent::Backing { period, board })
    }

    /// 17 down, 18 up: it keeps all else.
    fn turn(&mut self, down: bool) -> Sent {
        self.down = down;
        Sent::Nothing
    }
}

/// 6: no such peer, or the bytes name another. 7: it is not honest.
fn judge_peer(table: &Table, peer: usize, named: usize) -> Done {
    name_peer(table, peer)?;
    refuse_if(named != peer, Refusal::Name)?;
    need_honest(table, peer)
}
