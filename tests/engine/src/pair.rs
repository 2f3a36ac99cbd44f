//! The engines beside the reference, on the same calls.

use crate::layout::{decode, encode, LENGTH};
use crate::row14::is_state;
use crate::{Engine, ENGINES};
use inputs::random::Random;
use reference::state::{Entry, State};
use reference::table::{read_table, Table};

/// A table with the reference's state on it, and the bytes of that state.
#[derive(Clone)]
pub struct Pair {
    pub text: Vec<u8>,
    pub table: Table,
    pub state: State,
    pub buffer: Vec<u8>,
}

/// A step call, and what the reference makes of it.
pub struct Call<'a> {
    pub table: &'a [u8],
    pub before: &'a [u8],
    pub step: &'a [u8],
    pub answer: u8,
    pub after: &'a [u8],
}

impl Pair {
    /// The fresh state, from every engine.
    pub fn fresh(text: Vec<u8>) -> Pair {
        let table = read_table(&text).expect("a valid table");
        let state = State::fresh(&table);
        let buffer = encode(&state);
        for Engine { name, fresh, .. } in ENGINES {
            let mut bytes = vec![0xA5; LENGTH];
            assert_eq!(fresh(&text, &mut bytes), 0, "{name}");
            assert!(bytes == buffer, "{name}: another fresh state");
        }
        Pair { text, table, state, buffer }
    }

    /// A state that is lent, whose bytes row 14 lets pass and which they say.
    pub fn lent(text: Vec<u8>, state: State) -> Pair {
        let table = read_table(&text).expect("a valid table");
        let buffer = encode(&state);
        assert!(is_state(&table, &buffer), "no state of the table");
        assert!(decode(&table, &buffer) == state, "the bytes say another state");
        Pair { text, table, state, buffer }
    }

    /// Entries of every kind, as no steps may lead to, up to so many or a full
    /// bag.
    pub fn stuff(&mut self, random: &mut Random, most: usize) {
        for _ in 0..random.between(1, most) {
            let signer = random.between(1, self.table.n);
            let period = random.below(self.table.periods);
            let bits = random.bits();
            let board = (0..self.table.m()).filter(|i| bits >> i & 1 == 1).collect();
            let _full = self.state.enter(match random.below(3) {
                0 => Entry::Hash { signer, period, board },
                1 => Entry::Backing { signer, period, board },
                _ => Entry::Board { period, board },
            });
        }
        self.buffer = encode(&self.state);
    }

    /// Any peers hear the hashes, dishonest ones too, and now and then all have backed
    /// some periods.
    pub fn stir(&mut self, random: &mut Random) {
        let State { bag, peers, .. } = &mut self.state;
        let is_hash = |number: &usize| matches!(bag[*number], Entry::Hash { .. });
        for peer in peers.iter_mut() {
            peer.heard.extend(random.some_of(30, (0..bag.len()).filter(is_hash)));
        }
        if random.once_in(2) {
            let least = random.between(1, self.table.periods);
            for peer in peers.iter_mut() {
                (peer.p, peer.c) = (peer.p.max(least), peer.c.max(least));
            }
        }
        self.buffer = encode(&self.state);
    }

    /// One step call on all: the same answer and the same bytes after it.
    pub fn call(&mut self, step: &[u8]) -> u8 {
        self.call_on(&ENGINES, step).unwrap_or_else(|difference| {
            let zeros = self.buffer.iter().enumerate().filter(|(_, byte)| **byte != 0);
            println!("table {:?}\nstate, where not 0, {:?}", self.text, zeros.collect::<Vec<_>>());
            panic!("{difference}");
        })
    }

    /// One step call on these engines: the answer, or how one of them differs.
    fn call_on(&mut self, engines: &[Engine], step: &[u8]) -> Result<u8, String> {
        let (answer, after) = self.advance(step);
        let call = self.called(step, answer, &after);
        engines.iter().try_for_each(|engine| call.compare(engine))?;
        self.buffer = after;
        Ok(answer)
    }

    /// One step call: those of the engines that differ.
    pub fn differing(&mut self, engines: &[Engine], step: &[u8]) -> Vec<Engine> {
        let (answer, after) = self.advance(step);
        let call = self.called(step, answer, &after);
        let differs = |engine: &&Engine| call.compare(engine).is_err();
        let differing = engines.iter().filter(differs).copied().collect();
        self.buffer = after;
        differing
    }

    /// The reference's answer to a step, and the bytes that are due after it.
    fn advance(&mut self, step: &[u8]) -> (u8, Vec<u8>) {
        let answer = reference::step::step(&self.table, &mut self.state, step);
        let after = encode(&self.state);
        assert!(answer == 0 || after == self.buffer, "the reference changed by a refused step");
        (answer, after)
    }

    fn called<'a>(&'a self, step: &'a [u8], answer: u8, after: &'a [u8]) -> Call<'a> {
        Call { table: &self.text, before: &self.buffer, step, answer, after }
    }
}

impl Call<'_> {
    /// Calls the engine; how it differs, if it does.
    pub fn compare(&self, engine: &Engine) -> Result<(), String> {
        let mut bytes = self.before.to_vec();
        let answer = (engine.step)(self.table, &mut bytes, self.step);
        if answer == self.answer && bytes == self.after {
            return Ok(());
        }
        let wrong = (0..bytes.len()).find(|at| bytes[*at] != self.after[*at]);
        let (name, step, expected) = (engine.name, self.step, self.answer);
        let place = wrong.map_or("none".to_string(), |at| at.to_string());
        Err(format!("{name}, step {step:?}: {answer}, not {expected}; first wrong byte {place}"))
    }
}
