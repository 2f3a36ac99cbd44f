//! The clears that are measured: of the periods of an election that is over, and of
//! a full bag. Each input ends with them.

use engine::layout::{count, LENGTH};
use inputs::protocol::PROTOCOLS;
use plain::Run;
use reference::form::{write_step, Step};
use reference::state::BAG_SIZE;
use reference::table::write_table;

pub const CLEAR: u8 = 19;

pub struct Cleared {
    pub name: &'static str,
    pub input: fn() -> Vec<u8>,
}

pub const CLEARED: [Cleared; 3] = [
    Cleared { name: "election", input: election },
    Cleared { name: "full-bag-few", input: || full_bag(0) },
    Cleared { name: "full-bag-most", input: || full_bag(1) },
];

/// The protocol of sixteen peers, and then a clear of each of its four periods.
fn election() -> Vec<u8> {
    let clears = (0..4).flat_map(|period| write_step(Step::Clear { period }));
    PROTOCOLS[1].input().into_iter().chain(clears).collect()
}

/// Fifteen honest peers back two periods, and in the second a dishonest one floods
/// the bag with hashes. Every honest peer hears all hashes. Then a period is cleared:
/// the first, whose fifteen hashes are the first entries, or the second with the flood.
fn full_bag(period: usize) -> Vec<u8> {
    const HONEST: usize = 15;
    let items: Vec<Vec<u8>> = (0..8).map(|ballot| vec![0, 0, 0, ballot, 2]).collect();
    let mut steps: Vec<Step> = (0..items.len()).map(|item| Step::Post { item }).collect();
    let flood = BAG_SIZE - 4 * HONEST;
    for (period, flood) in [(0, 0), (1, flood)] {
        let first = period * 2 * HONEST;
        steps.extend((1..=HONEST).map(|peer| Step::Close { peer }));
        steps.extend((1..=HONEST).map(|peer| Step::Hash { peer, period }));
        let board = |k: usize| Step::FalseHash { peer: HONEST + 1, period, board: k as u64 };
        steps.extend((0..flood).map(board));
        for peer in 1..=HONEST {
            steps.extend((first..first + HONEST + flood).map(|entry| Step::Hear { peer, entry }));
            steps.push(Step::Back { peer });
        }
    }
    steps.push(Step::Clear { period });
    let table = write_table(16, 11, 0x7FFF, 2, &items);
    table.into_iter().chain(steps.into_iter().flat_map(write_step)).collect()
}

impl Cleared {
    /// The entries before each clear and after it.
    pub fn entries(&self) -> Vec<[usize; 2]> {
        let (input, mut state) = ((self.input)(), vec![0; LENGTH]);
        let (mut run, _) = Run::over(&input, &mut state).expect("a valid table");
        let mut entries = Vec::new();
        for step in crate::parts(&input).1 {
            let before = count(run.state());
            run.step(step);
            if step[0] == CLEAR {
                entries.push([before, count(run.state())]);
            }
        }
        entries
    }
}
