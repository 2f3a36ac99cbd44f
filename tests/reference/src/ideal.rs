//! The ideal board: what the peered board must look like from outside. It is
//! fed the steps, their answers and, with a publish answered 0, the period
//! and board of the backing named. It sees nothing else.

use crate::form::{read_step, Step};
use crate::state::Board;
use crate::table::Table;
use std::collections::{BTreeMap, BTreeSet};

#[derive(Clone, Debug, PartialEq, Eq)]
pub struct IdealBoard {
    pub posts: BTreeSet<usize>,
    /// Each honest peer's open period.
    pub open: BTreeMap<usize, usize>,
    /// The honest peers that signed, by (period, item).
    pub signed: BTreeMap<(usize, usize), BTreeSet<usize>>,
    /// (period, item)
    pub received: BTreeSet<(usize, usize)>,
    /// (period, item)
    pub receipts: BTreeSet<(usize, usize)>,
    /// (period, board), in the order published.
    pub boards: Vec<(usize, Board)>,
    /// Whether every move so far was allowed.
    pub all_allowed: bool,
}

impl IdealBoard {
    /// At the start all are empty and each open period is 0.
    pub fn new(table: &Table) -> IdealBoard {
        IdealBoard {
            posts: BTreeSet::new(),
            open: table.honest.iter().map(|j| (*j, 0)).collect(),
            signed: BTreeMap::new(),
            received: BTreeSet::new(),
            receipts: BTreeSet::new(),
            boards: Vec::new(),
            all_allowed: true,
        }
    }

    /// One step call with its answer. A refused step changes nothing.
    pub fn feed(
        &mut self,
        table: &Table,
        bytes: &[u8],
        answer: u8,
        backing: Option<(usize, Board)>,
    ) {
        if answer != 0 {
            return;
        }
        let Ok(step) = read_step(bytes) else {
            return;
        };
        match step {
            Step::Post { item } => self.post(item),
            Step::Close { peer } => self.close(peer),
            Step::Sign { peer, item } => self.sign(table, peer, item),
            Step::Receipt { period, item } => self.receipt(period, item),
            Step::Publish { .. } => {
                if let Some((period, board)) = backing {
                    self.publish(period, board)
                }
            }
            _ => {}
        }
    }

    /// The period's board, if there is one.
    pub fn board(&self, period: usize) -> Option<&Board> {
        self.boards.iter().find(|(q, _)| *q == period).map(|(_, board)| board)
    }

    /// The honest peers that signed the item in the period.
    pub fn honest_signers(&self, period: usize, item: usize) -> BTreeSet<usize> {
        self.signed.get(&(period, item)).cloned().unwrap_or_default()
    }

    fn post(&mut self, item: usize) {
        self.posts.insert(item);
    }

    fn close(&mut self, peer: usize) {
        *self.open.entry(peer).or_insert(0) += 1;
    }

    /// The peer joins those that signed. Once they have the weight that it takes, the
    /// item is received.
    fn sign(&mut self, table: &Table, peer: usize, item: usize) {
        let period = self.open.get(&peer).copied().unwrap_or(0);
        self.signed.entry((period, item)).or_default().insert(peer);
        let enough = reaches_honest_share(table, &self.honest_signers(period, item));
        if enough && !self.received.contains(&(period, item)) {
            self.receive(table, period, item);
        }
    }

    /// Allowed if the item is posted and clashes with nothing received in any
    /// period.
    fn receive(&mut self, table: &Table, period: usize, item: usize) {
        let clashes = self.received.iter().any(|(_, other)| table.clash(item, *other));
        if self.allow(self.posts.contains(&item) && !clashes) {
            self.received.insert((period, item));
        }
    }

    /// Allowed if the item is received in that period, and on the period's
    /// board if there is one.
    fn receipt(&mut self, period: usize, item: usize) {
        let received = self.received.contains(&(period, item));
        let on_board = match self.board(period) {
            Some(board) => board.contains(&item),
            None => true,
        };
        if self.allow(received && on_board) {
            self.receipts.insert((period, item));
        }
    }

    /// Allowed if the period has no board, all items of this one are received
    /// in the period, and it has every item receipted in the period.
    fn publish(&mut self, period: usize, board: Board) {
        if self.boards.contains(&(period, board.clone())) {
            return;
        }
        let none_yet = self.board(period).is_none();
        let all_received = board.iter().all(|item| self.received.contains(&(period, *item)));
        let all_receipted = self
            .receipts
            .iter()
            .filter(|(q, _)| *q == period)
            .all(|(_, item)| board.contains(item));
        if self.allow(none_yet && all_received && all_receipted) {
            self.boards.push((period, board));
        }
    }

    /// A move that is not allowed is left out, and remembered as such.
    fn allow(&mut self, allowed: bool) -> bool {
        self.all_allowed = self.all_allowed && allowed;
        allowed
    }
}

/// Whether honest peers have a weight of at least t plus all the honest weight less W,
/// without falling below 0. With weights of 1 they are at least t + h − n.
pub fn reaches_honest_share(table: &Table, signers: &BTreeSet<usize>) -> bool {
    table.weight(signers) + table.whole_weight() >= table.t + table.honest_weight()
}
