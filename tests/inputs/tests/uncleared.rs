//! Cleared runs beside uncleared ones, of document 02's P11: new ones in each run, with
//! the entry numbers of either.

use inputs::kinds::{rehearsal, round};
use inputs::period::{can_fill, false_hashes, filling_table, posts};
use inputs::random::{run_seed, Random};
use inputs::rehearsed::Rehearsed;
use inputs::steps::random_steps;
use inputs::tables::{random_table, Shape};
use inputs::uncleared::{Both, Numbers, Seen};
use reference::form::{write_step, Step};
use reference::state::BAG_SIZE;
use reference::table::{read_table, write_table, Table};

/// So many rounds, each of all kinds; and so many random runs.
const ROUNDS: usize = 4;
const RUNS: usize = 400;

/// What all runs with the entry numbers of one of both came to.
#[derive(Debug, Default)]
struct Tally {
    runs: usize,
    seen: Seen,
    /// Where the uncleared run was full, and there the cleared one was not, or was.
    ends: [usize; 2],
}

impl Tally {
    fn add(&mut self, both: &Both) {
        self.runs += 1;
        let (all, one) = (&mut self.seen, &both.seen);
        all.calls += one.calls;
        all.unnamed += one.unnamed;
        all.early += one.early;
        all.removing += one.removing;
        all.idle += one.idle;
        all.unknown += one.unknown;
        all.again += one.again;
        all.heard_less += one.heard_less;
        all.left_out += one.left_out;
        all.moved = [0, 1].map(|at| all.moved[at] + one.moved[at]);
        both.end.into_iter().for_each(|answer| self.ends[(answer == 13) as usize] += 1);
    }

    /// Whether each was seen so many times.
    fn shows(&self, numbers: Numbers, least: usize) {
        println!("numbers as {numbers:?}: {self:?}");
        let Seen { unnamed, early, removing, idle, unknown, again, heard_less, moved, .. } =
            self.seen;
        let times = [unnamed, early, removing, idle, again, heard_less, moved[0], moved[1]];
        assert!(times.iter().chain(&self.ends).all(|times| *times >= least));
        match numbers {
            Numbers::Uncleared => assert!(unknown >= least),
            Numbers::Cleared | Numbers::Untranslated => assert_eq!(unknown, 0),
        }
    }
}

/// The calls up to the end of the comparison; or how both differ.
fn run(both: &mut Both, numbers: Numbers, steps: &[Vec<u8>]) -> Result<(), String> {
    for bytes in steps {
        if both.end.is_some() {
            return Ok(());
        }
        both.call(numbers, bytes)?;
    }
    Ok(())
}

/// Both hold the same at the end, if there was no other before.
fn finish(both: &mut Both) -> Result<(), String> {
    if both.end.is_some() {
        return Ok(());
    }
    both.same_held()
}

/// Whole rehearsals of every kind: their numbers are taken for those of the uncleared run,
/// and for those of the cleared one.
#[test]
fn rehearsals() {
    let seed = run_seed();
    for numbers in [Numbers::Uncleared, Numbers::Cleared] {
        let mut tally = Tally::default();
        for number in 0..ROUNDS * round() {
            let (kind, input) = rehearsal(seed, number);
            let rehearsed = Rehearsed::new(&input);
            let Ok(outcome) = &rehearsed.outcome else { continue };
            let place = format!("seed {seed}, number {number}, {}", kind.name);
            let steps: Vec<Vec<u8>> = rehearsed.calls().map(|(step, _)| step.to_vec()).collect();
            let mut both = Both::fresh(&outcome.table);
            let same = run(&mut both, numbers, &steps).and_then(|()| finish(&mut both));
            same.unwrap_or_else(|wrong| panic!("{place}: {wrong}"));
            tally.add(&both);
        }
        tally.shows(numbers, 3);
    }
}

/// A table on which many periods are backed, or one whose bag can be filled, or any.
fn table(random: &mut Random, number: usize) -> Table {
    let text = match number % 4 {
        0 => random_table(random, [1, 3, 5, 16][number / 4 % 4]),
        1 => filling_table(random),
        _ => {
            let n = random.between(1, 5);
            let shape = Shape { n, periods: random.between(2, 8), m: random.between(1, 6) };
            let liars = random.below(3);
            shape.honest_table(random, liars)
        }
    };
    read_table(&text).expect("a valid table")
}

/// A run of random steps that either makes likely, and a flood of hashes between them.
fn random_run(random: &mut Random, number: usize, numbers: Numbers) -> Result<Both, String> {
    let table = table(random, number);
    let mut both = Both::fresh(&table);
    for round in 0..600 {
        let state = match numbers {
            Numbers::Cleared => &both.cleared,
            _ => &both.uncleared,
        };
        let mut steps = random_steps(random, &table, state);
        if round == 400 && number % 2 == 1 && can_fill(&table) {
            let flood = posts(&table).chain(false_hashes(random, &table));
            steps = flood.map(|step| write_step(step).to_vec()).collect();
        }
        run(&mut both, numbers, &steps)?;
    }
    finish(&mut both)?;
    Ok(both)
}

#[test]
fn random_runs() {
    let seed = run_seed();
    for numbers in [Numbers::Uncleared, Numbers::Cleared] {
        let mut tally = Tally::default();
        for number in 0..RUNS {
            let both = random_run(&mut Random::new(seed, number), number, numbers);
            tally
                .add(&both.unwrap_or_else(|wrong| panic!("seed {seed}, number {number}: {wrong}")));
        }
        tally.shows(numbers, 20);
    }
}

/// The comparison can fail: it does where numbers are not translated.
#[test]
fn untranslated_numbers_differ() {
    let seed = run_seed();
    let run = |number| random_run(&mut Random::new(seed, number), number, Numbers::Untranslated);
    let differing = (0..100).filter(|number| run(*number).is_err()).count();
    println!("{differing} of 100 runs differ");
    assert!(differing > 20);
}

/// With 256 entries every number names one. A call that names none of the cleared run is
/// then left out of the other. The next new entry is the end.
#[test]
fn a_number_for_every_entry() {
    let text = write_table(16, 11, 0, 8, &[vec![0, 0, 0, 7, 2]]);
    let mut both = Both::fresh(&read_table(&text).expect("a valid table"));
    let mut call = |step: Step| {
        assert_eq!(run(&mut both, Numbers::Cleared, &[write_step(step).to_vec()]), Ok(()));
        (both.cleared.bag.len(), both.uncleared.bag.len(), both.seen.left_out, both.end)
    };
    let hash =
        |k: usize| Step::FalseHash { peer: 1 + k % 16, period: k / 16 % 8, board: k as u64 / 128 };
    call(Step::Post { item: 0 });
    for k in 0..BAG_SIZE {
        call(hash(k));
    }
    // 16 peers have two hashes of a period each.
    assert_eq!(call(Step::Clear { period: 0 }), (224, 256, 0, None));
    assert_eq!(call(Step::Publish { entry: 224 }), (224, 256, 1, None));
    assert_eq!(call(Step::Publish { entry: 223 }), (224, 256, 1, None));
    assert_eq!(call(hash(0)), (225, 256, 1, None));
    let backing = Step::FalseBacking { peer: 1, period: 0, board: 0 };
    assert_eq!(call(backing), (226, 256, 1, Some(0)));
}
