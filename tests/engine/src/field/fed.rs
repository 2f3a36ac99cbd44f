//! A board beside the boxes of its honest peers: the proved board and the reference get
//! every call, and each box what the call passes to its peer.

use crate::board_step;
use crate::field::call::Call;
use crate::field::outside::*;
use crate::field::FieldBox;
use crate::layout::{encode, LENGTH};
use reference::field::bytes as boxed;
use reference::field::passed::{passed, sends, Passed};
use reference::form::STEP_LENGTH;
use reference::state::State;
use reference::step::step;
use reference::table::{read_table, Table};

pub struct Fed {
    pub text: Vec<u8>,
    pub table: Table,
    /// The reference's state, and the proved board's bytes.
    pub state: State,
    pub board: Vec<u8>,
    /// One for each honest peer.
    pub boxes: Vec<Boxed>,
    /// Where it is set, all boxes are such, and beside no others.
    alone: Option<FieldBox>,
}

/// A box, in step with its board until one of them is full.
#[derive(Clone)]
pub struct Boxed {
    pub peer: usize,
    pub state: Vec<u8>,
    pub in_step: bool,
}

/// Something that was passed to a peer, with the answers of board and box.
pub struct Met {
    pub peer: usize,
    pub passed: Passed,
    pub board: u8,
    pub answer: u8,
    /// Whether box and board were in step before it.
    pub in_step: bool,
    /// What the peer sends by it where it is answered 0.
    due: Option<Fact>,
    /// Whether it sends what was outside already.
    pub again: bool,
}

/// What the output has before each call.
const OUT: [u8; STEP_LENGTH] = [0xC3; STEP_LENGTH];

fn must(holds: bool, what: &str) -> Result<(), String> {
    if holds {
        Ok(())
    } else {
        Err(what.to_string())
    }
}

impl Fed {
    /// Fresh on both sides.
    pub fn fresh(text: &[u8]) -> Fed {
        let table = read_table(text).expect("a valid table");
        let fresh =
            |peer: &usize| Boxed { peer: *peer, state: vec![0; boxed::LENGTH], in_step: true };
        let boxes = table.honest.iter().map(fresh).collect();
        let (state, board) = (State::fresh(&table), vec![0; LENGTH]);
        Fed { text: text.to_vec(), table, state, board, boxes, alone: None }
    }

    /// The same with boxes of one sort, which may be wrong.
    pub fn alone(text: &[u8], field: FieldBox) -> Fed {
        Fed { alone: Some(field), ..Fed::fresh(text) }
    }

    /// One call: what it passed to a peer, if anything; or what is wrong after it.
    pub fn call(&mut self, call: &[u8]) -> Result<Option<Met>, String> {
        let before = self.board.clone();
        let peer = call.get(1).map_or(0, |peer| *peer as usize);
        let at = self.boxes.iter().position(|one| one.peer == peer);
        let passed = at.and_then(|_| passed(&self.table, &self.state, peer, call));
        let due = sends(&self.table, &self.state, peer, call);
        let board = board_step(&self.text, &mut self.board, call);
        let answer = step(&self.table, &mut self.state, call);
        must(answer == board, "board and reference answer otherwise")?;
        let mut met = match (at, passed) {
            (Some(at), Some(passed)) => Some(self.feed(at, passed, board, due)?),
            _ => None,
        };
        if let Some(met) = met.as_mut().filter(|met| met.board == 0) {
            met.again = due.is_some_and(|fact| is_outside(&before, &fact));
        }
        self.check_outside(&before, call, &met)?;
        if met.is_some() || before != self.board {
            self.boxes.iter().try_for_each(|one| self.check_part(one))?;
        }
        Ok(met)
    }

    /// The boxes in step that keep hashes of which the board has been cleared.
    pub fn keepers(&self) -> usize {
        let keeps =
            |one: &&Boxed| heard_in(&one.state).len() > heard_by(&self.board, one.peer).len();
        self.boxes.iter().filter(|one| one.in_step).filter(keeps).count()
    }

    /// The board's bytes are those of the reference's state.
    pub fn finish(&self) -> Result<(), String> {
        must(encode(&self.state) == self.board, "board and reference differ")
    }

    /// The box gets what was passed; as long as it is in step it answers and sends as the
    /// board has it.
    fn feed(
        &mut self,
        at: usize,
        passed: Passed,
        board: u8,
        due: Option<Fact>,
    ) -> Result<Met, String> {
        let Boxed { peer, state, in_step } = self.boxes[at].clone();
        let (table, before) = (&self.text[..], &state[..]);
        let call = Call { table, peer: peer as u8, before, passed: &passed, out: &OUT };
        let outcome = match &self.alone {
            Some(field) => call.on(field),
            None => call.same()?,
        };
        let is_full = board == 13 || outcome.answer == 13;
        if in_step && !is_full {
            must(outcome.answer == board, "the box answers otherwise than the board")?;
            let sent = match (&passed, board) {
                (Passed::Step(_), 0) => due.unwrap_or([0; STEP_LENGTH]),
                _ => OUT,
            };
            must(outcome.sent() == sent, "the box sends otherwise than the peer")?;
        }
        let (state, answer) = (outcome.state().to_vec(), outcome.answer);
        self.boxes[at] = Boxed { peer, state, in_step: in_step && !is_full };
        Ok(Met { peer, passed, board, answer, in_step, due, again: false })
    }

    /// What entered of honest peers' names is what they sent by what was passed to them,
    /// and that is there; only a clear removes anything, and only hashes.
    fn check_outside(&self, before: &[u8], call: &[u8], met: &Option<Met>) -> Result<(), String> {
        let taken = met.as_ref().filter(|met| met.board == 0);
        let due = taken.and_then(|met| met.due);
        for fact in entered(before, &self.board) {
            let honest = self.table.is_honest(fact[1] as usize);
            must(!honest || due == Some(fact), "an honest peer sent what it does not send")?;
        }
        let is_there = due.is_none_or(|fact| is_outside(&self.board, &fact));
        must(is_there, "what the peer sends is not outside")?;
        let left = entered(&self.board, before);
        let cleared = |fact: &Fact| call[0] == 19 && fact[0] == 9;
        must(left.iter().all(cleared), "something outside went without a clear")
    }

    /// A box in step says its peer's part of the board's bytes, and has heard the same
    /// hashes of the periods from c on; what the board still has of others it has too.
    fn check_part(&self, Boxed { peer, state, in_step }: &Boxed) -> Result<(), String> {
        if !in_step {
            return Ok(());
        }
        must(part_of(&self.board, *peer) == state[..boxed::COUNT], "the box has another part")?;
        let (board, own) = (heard_by(&self.board, *peer), heard_in(state));
        let is_known = |hash: &&[u8]| own.binary_search(hash).is_ok();
        must(board.iter().all(is_known), "a heard hash is not in the box")?;
        let next = state[boxed::NEXT];
        must(from_period(board, next) == from_period(own, next), "the box has heard otherwise")
    }
}
