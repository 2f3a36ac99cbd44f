//! Shares asked for on lent states, of document 02's P6: with shares outside of
//! earlier periods, of the open one and of later ones, the peer's own and others',
//! and with signers that are a quorum or not. What is due is told by how a state was
//! made, and not by an engine.

use crate::layout::encode;
use crate::pair::{Call, Pair};
use crate::Engine;
use inputs::peers::Peers;
use inputs::random::Random;
use inputs::scattered::scattered;
use inputs::tables::Shape;
use reference::form::{write_step, Step, STEP_LENGTH};
use reference::state::State;
use reference::table::{read_table, Table};

/// What has a part in the answer to a share. Bit q of a set is period q.
#[derive(Clone, Copy, Debug)]
pub struct Case {
    pub periods: usize,
    /// The peer's open period; P if it has none.
    pub open: usize,
    /// The periods in which the peer gave a share for the item, and in which some
    /// other peer did.
    pub own: u8,
    pub others: u8,
    /// The signers that the peer holds in its open period.
    pub signers: Signers,
    pub honest: bool,
    pub up: bool,
}

#[derive(Clone, Copy, Debug, PartialEq, Eq)]
pub enum Signers {
    None,
    /// As many as can be without a quorum.
    TooFew,
    /// As many as it takes for a quorum.
    Enough,
    All,
}

const SIGNERS: [Signers; 4] = [Signers::None, Signers::TooFew, Signers::Enough, Signers::All];

/// The cases of four periods and a peer that nothing else hinders: 5 open periods, 16
/// sets for the peer and 16 for others, and 4 numbers of signers.
pub const COMBINATIONS: usize = 5 * 16 * 16 * SIGNERS.len();

impl Case {
    /// Each of these cases in turn.
    pub fn in_turn(number: usize) -> Case {
        Case {
            periods: 4,
            open: number % 5,
            own: (number / 5 % 16) as u8,
            others: (number / 80 % 16) as u8,
            signers: SIGNERS[number / 1_280 % SIGNERS.len()],
            honest: true,
            up: true,
        }
    }

    /// Any case, now and then of a peer that is dishonest or down.
    pub fn any(random: &mut Random) -> Case {
        let periods = random.between(1, 8);
        let all = u8::MAX >> (8 - periods);
        let mut some = || (random.bits() & random.bits()) as u8 & all;
        let [own, others] = [some(), some()];
        Case {
            periods,
            open: random.between(0, periods),
            own,
            others,
            signers: SIGNERS[random.below(SIGNERS.len())],
            honest: !random.once_in(6),
            up: !random.once_in(6),
        }
    }

    /// Whether a set has a period before the open one, the open one, one after it.
    pub fn when(&self, set: u8) -> [bool; 3] {
        let has = |from: usize, to: usize| (from..to).any(|q| set >> q & 1 == 1);
        let next = self.periods.min(self.open + 1);
        [has(0, self.open), has(self.open, next), has(next, self.periods)]
    }

    pub fn is_short(&self) -> bool {
        [Signers::None, Signers::TooFew].contains(&self.signers)
    }

    /// The answer: the first of 7, 8, 9, 17 and 12 that applies, else 0.
    pub fn due(&self) -> u8 {
        let [gave_before, _, _] = self.when(self.own);
        let judged = [
            (7, !self.honest),
            (8, !self.up),
            (9, self.open == self.periods),
            (17, gave_before),
            (12, self.is_short()),
        ];
        judged.into_iter().find(|(_, applies)| *applies).map_or(0, |(number, _)| number)
    }
}

/// A share asked for on a lent state.
pub struct Asked {
    pub case: Case,
    pub pair: Pair,
    pub peer: usize,
    pub item: usize,
}

impl Asked {
    /// On a random table and a state in which all else is random too.
    pub fn new(random: &mut Random, case: Case) -> Asked {
        let n = if random.once_in(10) { 16 } else { random.between(2, 5) };
        let peers = Peers::random(random, n);
        let t = random.between(peers.least(), peers.sum());
        let mut liars = random.drawn(1..=n);
        liars.truncate(random.between(!case.honest as usize, n - case.honest as usize));
        let shape = Shape { n, periods: case.periods, m: random.between(1, 6) };
        let text = shape.table_with(random, &peers, t, &liars);
        let table = read_table(&text).expect("a valid table");
        let alike = (1..=n).filter(|k| table.is_honest(*k) == case.honest);
        let (peer, item) = (random.pick(alike).expect("a peer"), random.below(table.m()));
        let mut state = scattered(random, &table);
        put_case(random, &table, &mut state, &case, (peer, item));
        Asked { case, pair: Pair::lent(text, state), peer, item }
    }

    pub fn step(&self) -> [u8; STEP_LENGTH] {
        write_step(Step::Share { peer: self.peer, item: self.item })
    }

    /// The bytes of the state that is due after it.
    pub fn after(&self) -> Vec<u8> {
        let mut state = self.pair.state.clone();
        if self.case.due() == 0 {
            state.shares.insert((self.peer, self.case.open, self.item));
        }
        encode(&state)
    }

    /// How an engine differs from what is due, if it does.
    pub fn compare(&self, engine: &Engine) -> Result<(), String> {
        let (table, before) = (&self.pair.text[..], &self.pair.buffer[..]);
        let (step, answer, after) = (&self.step()[..], self.case.due(), &self.after()[..]);
        Call { table, before, step, answer, after }.compare(engine)
    }
}

/// What the case says of the peer and the item.
fn put_case(
    random: &mut Random,
    table: &Table,
    state: &mut State,
    case: &Case,
    (peer, item): (usize, usize),
) {
    state.shares.retain(|share| share.2 != item);
    let in_set = |set: u8| (0..case.periods).filter(move |q| set >> q & 1 == 1);
    state.shares.extend(in_set(case.own).map(|q| (peer, q, item)));
    for q in in_set(case.others) {
        let others = random.drawn((1..=table.n).filter(|k| *k != peer));
        let count = random.between(1, others.len());
        state.shares.extend(others[..count].iter().map(|k| (*k, q, item)));
    }
    let j = state.peer_mut(peer);
    (j.up, j.p, j.c) = (case.up, case.open, random.between(0, case.open));
    if case.open < case.periods {
        j.database.remove(&(case.open, item));
        let peers = Peers::of_table(table);
        let signers = match case.signers {
            Signers::None => Vec::new(),
            Signers::TooFew => peers.within(random, table.t - 1),
            Signers::Enough => peers.reaching(random, table.t),
            Signers::All => (1..=table.n).collect(),
        };
        signers.into_iter().for_each(|k| j.record(k, case.open, item));
    }
}
