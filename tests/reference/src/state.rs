//! What is held outside and by each peer, in plain sets and counters.

use crate::table::Table;
use crate::Refusal;
use std::collections::{BTreeMap, BTreeSet};

/// A board, and what stands for its hash: a set of items.
pub type Board = BTreeSet<usize>;

/// One of the bag's entries.
#[derive(Clone, Debug, PartialEq, Eq)]
pub enum Entry {
    Hash { signer: usize, period: usize, board: Board },
    Backing { signer: usize, period: usize, board: Board },
    Board { period: usize, board: Board },
}

/// The most entries that the bag takes.
pub const BAG_SIZE: usize = 256;

#[derive(Clone, Debug, PartialEq, Eq)]
pub struct State {
    pub posted: BTreeSet<usize>,
    /// (peer, period, item)
    pub signatures: BTreeSet<(usize, usize, usize)>,
    /// (peer, period, item): receipt shares, made with the other key.
    pub shares: BTreeSet<(usize, usize, usize)>,
    /// (period, item)
    pub receipts: BTreeSet<(usize, usize)>,
    /// Different entries, numbered from 0 as they came; what is cleared leaves no gap.
    pub bag: Vec<Entry>,
    /// Peer j is `peers[j - 1]`; see `peer` and `peer_mut`.
    pub peers: Vec<Peer>,
}

#[derive(Clone, Debug, PartialEq, Eq)]
pub struct Peer {
    pub up: bool,
    /// (period, item)
    pub held: BTreeSet<(usize, usize)>,
    /// Signer sets by (period, item); no empty set is kept.
    pub database: BTreeMap<(usize, usize), BTreeSet<usize>>,
    /// The numbers of the hash entries it heard.
    pub heard: BTreeSet<usize>,
    /// p, the open period; P: none.
    pub p: usize,
    /// c, the next period to back.
    pub c: usize,
}

impl State {
    /// Fresh: all empty, all up, counters 0.
    pub fn fresh(table: &Table) -> State {
        let peer = Peer {
            up: true,
            held: BTreeSet::new(),
            database: BTreeMap::new(),
            heard: BTreeSet::new(),
            p: 0,
            c: 0,
        };
        State {
            posted: BTreeSet::new(),
            signatures: BTreeSet::new(),
            shares: BTreeSet::new(),
            receipts: BTreeSet::new(),
            bag: Vec::new(),
            peers: vec![peer; table.n],
        }
    }

    /// Peer j, counted from 1.
    pub fn peer(&self, j: usize) -> &Peer {
        &self.peers[j - 1]
    }

    pub fn peer_mut(&mut self, j: usize) -> &mut Peer {
        &mut self.peers[j - 1]
    }

    /// The peers whose receipt share on the item is outside.
    pub fn sharers(&self, period: usize, item: usize) -> BTreeSet<usize> {
        let shares = self.shares.iter().filter(|share| share.1 == period && share.2 == item);
        shares.map(|share| share.0).collect()
    }

    /// The entry enters the bag, if it is not there. 13: 256 others are.
    pub fn enter(&mut self, entry: Entry) -> Result<(), Refusal> {
        if self.bag.contains(&entry) {
            return Ok(());
        }
        if self.bag.len() >= BAG_SIZE {
            return Err(Refusal::Full);
        }
        self.bag.push(entry);
        Ok(())
    }

    /// The period's hash entries leave the bag. The rest keep their order and are
    /// numbered afresh, and each peer's heard entries follow.
    pub fn remove_hashes(&mut self, period: usize) {
        let goes = |entry: &Entry| matches!(entry, Entry::Hash { period: q, .. } if *q == period);
        // What stays, by its old numbers: the place of each here is its new one.
        let stay: Vec<usize> = (0..self.bag.len()).filter(|k| !goes(&self.bag[*k])).collect();
        for peer in &mut self.peers {
            let heard = (0..stay.len()).filter(|new| peer.heard.contains(&stay[*new]));
            peer.heard = heard.collect();
        }
        self.bag.retain(|entry| !goes(entry));
    }

    /// The period and board of a backing, by its entry number.
    pub fn backing(&self, entry: usize) -> Option<(usize, Board)> {
        match self.bag.get(entry) {
            Some(Entry::Backing { period, board, .. }) => Some((*period, board.clone())),
            _ => None,
        }
    }

    /// The published boards with their periods, in bag order.
    pub fn boards(&self) -> Vec<(usize, Board)> {
        let mut boards = Vec::new();
        for entry in &self.bag {
            if let Entry::Board { period, board } = entry {
                boards.push((*period, board.clone()));
            }
        }
        boards
    }
}

impl Peer {
    /// The signers in the database.
    pub fn signers(&self, period: usize, item: usize) -> BTreeSet<usize> {
        self.database.get(&(period, item)).cloned().unwrap_or_default()
    }

    /// A signature enters the database.
    pub fn record(&mut self, signer: usize, period: usize, item: usize) {
        self.database.entry((period, item)).or_default().insert(signer);
    }

    /// The peer's board of a period: the items with t signers, by weight, in its
    /// database.
    pub fn board(&self, table: &Table, period: usize) -> Board {
        self.database
            .iter()
            .filter(|((q, _), signers)| *q == period && table.is_quorum(signers))
            .map(|((_, item), _)| *item)
            .collect()
    }
}
