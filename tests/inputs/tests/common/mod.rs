//! Random runs on the reference, with the ideal board beside it.
#![allow(dead_code)]

use inputs::making::Making;
use inputs::peers::Peers;
use inputs::random::Random;
use inputs::tables::Shape;
use reference::form::{read_step, Step};
use reference::ideal::IdealBoard;
use reference::state::State;
use reference::step::step;
use reference::table::{Table, LEAST_THRESHOLD};

/// A run with what it came to, on the reference and on the ideal board.
pub struct Run {
    pub table: Table,
    pub state: State,
    pub ideal: IdealBoard,
    /// Every call with its answer.
    pub calls: Vec<(Vec<u8>, u8)>,
}

impl Run {
    /// A random run on a table with this threshold, of whose peers these are honest.
    fn random(
        random: &mut Random,
        peers: &Peers,
        t: usize,
        honest: &[usize],
        bursts: usize,
    ) -> Run {
        let n = peers.weights.len();
        let liars: Vec<usize> = (1..=n).filter(|peer| !honest.contains(peer)).collect();
        let shape = Shape { n, periods: random.between(1, 3), m: random.between(1, 9) };
        let text = shape.table_with(random, peers, t, &liars);
        let mut making = Making::on(random, text);
        making.run_in_bursts(bursts);
        Run::of(making.table, making.steps)
    }

    /// A random run on a table of so many peers with the least threshold, where the
    /// honest weight is just too little.
    pub fn with_too_few(number: usize, n: usize) -> Run {
        let random = &mut Random::new(SEED, number);
        let peers = Peers::random(random, n);
        let honest = peers.within(random, peers.least() - 1);
        Run::random(random, &peers, peers.least(), &honest, 25)
    }

    fn of(table: Table, steps: Vec<Vec<u8>>) -> Run {
        let (state, ideal) = (State::fresh(&table), IdealBoard::new(&table));
        let mut run = Run { table, state, ideal, calls: Vec::new() };
        steps.into_iter().for_each(|bytes| run.call(bytes));
        run
    }

    /// One step call; the ideal board is fed what document 01 lets it see.
    /// Now and then the state is kept, to see that a refusal alters nothing.
    fn call(&mut self, bytes: Vec<u8>) {
        let backing = match read_step(&bytes) {
            Ok(Step::Publish { entry }) => self.state.backing(entry),
            _ => None,
        };
        let before = self.calls.len().is_multiple_of(20).then(|| self.state.clone());
        let answer = step(&self.table, &mut self.state, &bytes);
        assert!(answer == 0 || before.is_none_or(|state| state == self.state));
        let told = backing.filter(|_| answer == 0);
        self.ideal.feed(&self.table, &bytes, answer, told);
        self.calls.push((bytes, answer));
    }

    /// Whether some call got the answer.
    pub fn was_answered(&self, number: u8) -> bool {
        self.calls.iter().any(|(_, answer)| *answer == number)
    }
}

/// The runs are the same ones each time.
const SEED: u64 = 3;

/// A run under the premise: an honest weight of t, of W in all, and 3t > 2W.
pub fn run_under_premise(number: usize) -> Run {
    run_with(number, |t| t)
}

/// A run on any table that has an honest peer.
pub fn run_on_any_table(number: usize) -> Run {
    run_with(number, |_| 1)
}

/// A run with at least so much honest weight, given t.
fn run_with(number: usize, least: fn(usize) -> usize) -> Run {
    let random = &mut Random::new(!SEED, number);
    let most = if random.chance(10) { 16 } else { 6 };
    let n = random.between(1, most);
    let peers = Peers::random(random, n);
    let t = random.between(peers.least(), peers.sum());
    let weight = random.between(least(t), peers.sum());
    let honest = peers.reaching(random, weight);
    let bursts = random.between(5, 30);
    Run::random(random, &peers, t, &honest, bursts)
}

/// As many peers as would be a quorum if no peer weighed more than another.
pub fn are_many(table: &Table, peers: usize) -> bool {
    peers >= LEAST_THRESHOLD[table.n - 1]
}
