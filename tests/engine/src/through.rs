//! Whether what document 02's P3 promises of a close has come, on every engine.

use crate::closes::Ran;
use crate::pair::Pair;
use inputs::random::Random;
use inputs::steps::random_steps;
use reference::form::{write_step, Step};
use reference::state::{Board, Entry, State, BAG_SIZE};
use std::collections::BTreeMap;

impl Ran {
    /// What P3 promises of the exchange and of the state after it, or what is not so.
    pub fn comes_through(&self) -> Result<(), String> {
        if let Some(at) = self.calls.iter().position(|call| !call.same_union) {
            return Err(format!("another union after call {at}"));
        }
        let backed = self.calls.iter().filter_map(|call| call.backs.as_ref());
        if let Some(board) = backed.into_iter().find(|board| **board != self.board) {
            return Err(format!("backed: {board:?}"));
        }
        let late = |peer: &usize| self.pair.state.peer(*peer).c <= self.period;
        match (1..=self.pair.table.n).find(late) {
            Some(peer) => Err(format!("peer {peer} has not backed")),
            None => self.is_backed(&self.pair),
        }
    }

    /// What P3 promises of the backings after the exchange, or after further calls: there
    /// is each peer's of the board, and none of another that was not there before.
    pub fn is_backed(&self, pair: &Pair) -> Result<(), String> {
        let backings: Vec<(usize, Board)> =
            backings(&pair.state, self.period).into_values().collect();
        let lacks = |peer: &usize| !backings.contains(&(*peer, self.board.clone()));
        if let Some(peer) = (1..=pair.table.n).find(lacks) {
            return Err(format!("no backing by {peer}"));
        }
        let is_new = |(signer, board): &&(usize, Board)| {
            let (signer, period, board) = (*signer, self.period, board.clone());
            !self.start.bag.contains(&Entry::Backing { signer, period, board })
        };
        match backings.iter().filter(is_new).find(|(_, board)| *board != self.board) {
            Some((signer, board)) => Err(format!("peer {signer} backs {board:?}")),
            None => Ok(()),
        }
    }

    /// A copy of the engines after any further calls, downs among them.
    pub fn after_any_calls(&self, random: &mut Random) -> Pair {
        let mut pair = self.pair.clone();
        for _ in 0..random.between(1, 8) {
            for step in random_steps(random, &pair.table, &pair.state).iter().take(8) {
                pair.call(step);
            }
            let peer = random.between(1, pair.table.n);
            pair.call(&write_step(Step::Down { peer }));
        }
        pair
    }

    /// Publishes a random backing of the board: the answer, which is 0 unless the bag is
    /// full, and then the board is one of the period's. Else what is wrong.
    pub fn publish(&self, random: &mut Random, pair: &mut Pair) -> Result<u8, String> {
        let full = pair.state.bag.len() == BAG_SIZE;
        let due =
            if full && !boards(&pair.state, self.period).contains(&self.board) { 13 } else { 0 };
        let of_board = |(_, (_, board)): &(usize, (usize, Board))| *board == self.board;
        let backings = backings(&pair.state, self.period).into_iter().filter(of_board);
        let (entry, _) = random.pick(backings).ok_or("no backing")?;
        let answer = pair.call(&write_step(Step::Publish { entry }));
        let boards = boards(&pair.state, self.period);
        if answer != due || answer == 0 && !boards.contains(&self.board) {
            return Err(format!("publish entry {entry}: {answer}, not {due}; boards {boards:?}"));
        }
        Ok(answer)
    }
}

/// The backings of a period, by their numbers: signer and board.
pub fn backings(state: &State, period: usize) -> BTreeMap<usize, (usize, Board)> {
    let backing = |(e, entry): (usize, &Entry)| match entry {
        Entry::Backing { signer, period: q, board } if *q == period => {
            Some((e, (*signer, board.clone())))
        }
        _ => None,
    };
    state.bag.iter().enumerate().filter_map(backing).collect()
}

/// The boards of a period.
pub fn boards(state: &State, period: usize) -> Vec<Board> {
    let boards = state.boards().into_iter().filter(|(q, _)| *q == period);
    boards.map(|(_, board)| board).collect()
}
