//! Helpers of the tests: tables from parts, and runs.
#![allow(dead_code)]

pub mod field;

use reference::form::{write_step, Step};
use reference::season::Season;
use reference::state::State;
use reference::step::step;
use reference::table::{read_front, read_table, write_table_of, write_weighted, Table};

pub fn vote(ballot: u32, preferences: &[u8]) -> Vec<u8> {
    [&ballot.to_be_bytes()[..], &[1], preferences].concat()
}

pub fn audit(ballot: u32) -> Vec<u8> {
    [&ballot.to_be_bytes()[..], &[2]].concat()
}

pub fn placed_audit(ballot: u32, place: u8) -> Vec<u8> {
    [&ballot.to_be_bytes()[..], &[2, place]].concat()
}

pub fn cancellation(ballot: u32) -> Vec<u8> {
    [&ballot.to_be_bytes()[..], &[3]].concat()
}

/// Document 01's case R.
pub const CASE_R_TABLE: [u8; 15] =
    [0x01, 0x01, 0x00, 0x01, 0x01, 0x01, 0x00, 0x0A, 0x00, 0x05, 0x00, 0x00, 0x00, 0x07, 0x02];

pub fn case_r_steps() -> Vec<Step> {
    vec![
        Step::Post { item: 0 },
        Step::Hand { peer: 1, item: 0 },
        Step::Sign { peer: 1, item: 0 },
        Step::Share { peer: 1, item: 0 },
        Step::Receipt { period: 0, item: 0 },
        Step::Close { peer: 1 },
        Step::Hash { peer: 1, period: 0 },
        Step::Hear { peer: 1, entry: 0 },
        Step::Back { peer: 1 },
        Step::Publish { entry: 1 },
    ]
}

/// The bytes of a table of the old season, its honest peers listed.
pub fn table_bytes(n: u8, t: u8, honest: &[usize], periods: u8, items: &[Vec<u8>]) -> Vec<u8> {
    table_bytes_of(Season::Old, n, t, honest, periods, items)
}

/// The same of a season.
pub fn table_bytes_of(
    season: Season,
    n: u8,
    t: u8,
    honest: &[usize],
    periods: u8,
    items: &[Vec<u8>],
) -> Vec<u8> {
    write_table_of(season, n, t, set_of(honest), periods, items)
}

/// The bytes of a weighted table, its weights and its honest peers listed.
pub fn weighted(
    weights: &[u8],
    t: u8,
    honest: &[usize],
    periods: u8,
    items: &[Vec<u8>],
) -> Vec<u8> {
    write_weighted(weights, t, set_of(honest), periods, items)
}

fn set_of(peers: &[usize]) -> u16 {
    peers.iter().fold(0, |set, k| set | 1 << (k - 1))
}

/// The table's number when it stands alone; 0 if taken.
pub fn alone(bytes: &[u8]) -> u8 {
    read_table(bytes).map_or_else(|refusal| refusal.number(), |_| 0)
}

/// The number of the table at the front of an input; 0 if taken.
pub fn front(input: &[u8]) -> u8 {
    read_front(input).map_or_else(|refusal| refusal.number(), |_| 0)
}

/// Both, where they are the same.
pub fn both(bytes: &[u8]) -> u8 {
    assert_eq!(alone(bytes), front(bytes));
    alone(bytes)
}

/// Every n and t, in a header behind what its season starts with: taken from document
/// 01's least threshold for n up to n. The weight, if there is one, is each peer's.
pub fn check_thresholds(mark: &[u8], weight: &[u8]) {
    let least = [1, 2, 3, 3, 4, 5, 5, 6, 7, 7, 8, 9, 9, 10, 11, 11];
    for (n, t) in (0..=255u8).flat_map(|n| (0..=255u8).map(move |t| (n, t))) {
        let taken = (1..=16).contains(&n) && t >= least[n as usize - 1] && t <= n;
        let table = [mark, &[n, t, 0, 0, 1, 0], &weight.repeat(n as usize)].concat();
        assert_eq!(both(&table) == 0, taken, "n {n} t {t}");
    }
}

/// The bytes of a rehearsal: a table, then steps.
pub fn rehearsal(table: &[u8], steps: &[Step]) -> Vec<u8> {
    let mut input = table.to_vec();
    for step in steps {
        input.extend(write_step(*step));
    }
    input
}

/// A table with a state under it.
pub struct Run {
    pub table: Table,
    pub state: State,
}

impl Run {
    pub fn new(table: &[u8]) -> Run {
        let table = read_table(table).unwrap();
        let state = State::fresh(&table);
        Run { table, state }
    }

    /// The answer to any bytes. A refused call must alter nothing.
    pub fn call_bytes(&mut self, bytes: &[u8]) -> u8 {
        let before = self.state.clone();
        let answer = step(&self.table, &mut self.state, bytes);
        assert!(answer == 0 || self.state == before, "{bytes:?} refused and yet took effect");
        answer
    }

    pub fn call(&mut self, step: Step) -> u8 {
        self.call_bytes(&write_step(step))
    }

    /// Steps that must all be answered 0.
    pub fn done(&mut self, steps: &[Step]) {
        for step in steps {
            assert_eq!(self.call(*step), 0, "{step:?}");
        }
    }
}

/// Four peers, t = 3, peer 4 dishonest, two periods; items 0 and 1 clash.
pub fn four_peers() -> Run {
    let items = [vote(7, &[0]), vote(7, &[1]), audit(8), cancellation(7)];
    Run::new(&table_bytes(4, 3, &[1, 2, 3], 2, &items))
}

/// Item 0 signed by peers 1, 2, 3 and known to all of them.
pub fn signed_by_three() -> Run {
    let mut run = four_peers();
    run.done(&[Step::Post { item: 0 }]);
    for peer in 1..=3 {
        run.done(&[Step::Hand { peer, item: 0 }, Step::Sign { peer, item: 0 }]);
    }
    for peer in 1..=3 {
        for other in 1..=3 {
            run.done(&[Step::Take { peer, other, period: 0, item: 0 }]);
        }
    }
    run
}

/// As above, closed and hashed by peers 1, 2, 3: entries 0, 1, 2.
pub fn hashed_by_three() -> Run {
    let mut run = signed_by_three();
    for peer in 1..=3 {
        run.done(&[Step::Close { peer }, Step::Hash { peer, period: 0 }]);
    }
    run
}
