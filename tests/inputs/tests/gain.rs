//! The count of a step file beside what the bag gains, of document 02's P11: never more
//! enters than the count says, some files reach it, and where it is at most 256 no step
//! answers full.

use inputs::kinds::{rehearsal, round};
use inputs::random::run_seed;
use inputs::rehearsed::Rehearsed;
use reference::form::{write_step, Step, STEP_LENGTH};
use reference::gain::gain;
use reference::state::{State, BAG_SIZE};
use reference::step::step;
use reference::table::{read_table, write_table, Table};
use std::collections::BTreeSet;

/// So many rounds, each of all kinds.
const ROUNDS: usize = 5;

/// A step with its answer, and whether it brought an entry.
struct Called<'a> {
    bytes: &'a [u8],
    answer: u8,
    enters: bool,
}

/// A step file, run from the fresh state.
fn run<'a>(table: &Table, file: &'a [u8]) -> Vec<Called<'a>> {
    let mut state = State::fresh(table);
    let mut call = |bytes: &'a [u8]| {
        let before = state.bag.len();
        let answer = step(table, &mut state, bytes);
        Called { bytes, answer, enters: state.bag.len() > before }
    };
    file.chunks(STEP_LENGTH).map(&mut call).collect()
}

/// The entries that came, those among them that a clear removed again.
fn entered(calls: &[Called]) -> usize {
    calls.iter().filter(|call| call.enters).count()
}

fn was_full(calls: &[Called]) -> bool {
    calls.iter().any(|call| call.answer == 13)
}

/// The file without the steps that count and brought nothing, but for steps 16 once they
/// were taken.
fn without_idle(calls: &[Called]) -> Vec<u8> {
    let mut taken = BTreeSet::new();
    let mut stays = |call: &&Called| {
        if call.enters {
            taken.insert(call.bytes.to_vec());
        }
        match call.bytes[0] {
            9 | 11 | 12 | 15 => call.enters,
            16 => taken.contains(call.bytes),
            _ => true,
        }
    };
    let file: Vec<&[u8]> = calls.iter().filter(&mut stays).map(|call| call.bytes).collect();
    file.concat()
}

#[test]
fn never_more_on_rehearsals() {
    let (seed, mut runs, mut fit, mut full, mut cleared) = (run_seed(), 0, 0, 0, 0);
    for number in 0..ROUNDS * round() {
        let (kind, input) = rehearsal(seed, number);
        let Ok(outcome) = Rehearsed::new(&input).outcome else { continue };
        let (place, file) =
            (format!("seed {seed}, number {number}, {}", kind.name), &input[outcome.end..]);
        let (calls, count) = (run(&outcome.table, file), gain(file));
        assert!(entered(&calls) <= count, "{place}: {} of {count}", entered(&calls));
        assert!(count > BAG_SIZE || !was_full(&calls), "{place}: full");
        runs += 1;
        fit += (count <= BAG_SIZE) as usize;
        full += was_full(&calls) as usize;
        // More came than the bag holds at once.
        cleared += (entered(&calls) > outcome.state.bag.len()) as usize;
    }
    println!("{runs} files, {fit} with at most 256, {full} that fill the bag, {cleared} cleared");
    assert!(fit > 500 && full > 20 && cleared > 20);
}

/// Without what brings nothing the count is reached. Steps 16 that come again count
/// nothing, nor does a short tail.
#[test]
fn reached_on_rehearsals() {
    let (seed, mut counts, mut again) = (run_seed(), BTreeSet::new(), 0);
    for number in 0..ROUNDS * round() {
        let (kind, input) = rehearsal(seed, number);
        let Ok(outcome) = Rehearsed::new(&input).outcome else { continue };
        let place = format!("seed {seed}, number {number}, {}", kind.name);
        let whole = run(&outcome.table, &input[outcome.end..]);
        let mut file = without_idle(&whole);
        file.truncate(file.len() / STEP_LENGTH * STEP_LENGTH);
        file.extend([9; STEP_LENGTH - 1]);
        let calls = run(&outcome.table, &file);
        assert_eq!((gain(&file), entered(&calls)), (entered(&whole), entered(&whole)), "{place}");
        counts.insert(gain(&file));
        again += calls.iter().filter(|call| call.bytes[0] == 16 && !call.enters).count();
    }
    println!("{} different counts, the most {:?}; {again} 16s again", counts.len(), counts.last());
    assert!(counts.len() > 40 && counts.last() > Some(&BAG_SIZE) && again > 5);
}

/// The bytes of steps.
fn file_of(steps: impl IntoIterator<Item = Step>) -> Vec<u8> {
    steps.into_iter().flat_map(write_step).collect()
}

/// A table of an item and 8 periods with these peers, all of the same sort.
fn table_of(n: u8, honest: u16) -> Table {
    read_table(&write_table(n, n, honest, 8, &[vec![0, 0, 0, 7, 2]])).expect("a valid table")
}

/// Eight periods of 16 peers: each has 8 backs and tries more. What was cleared is sent
/// again, so that more comes than the bag holds, and the count is reached.
#[test]
fn reached_with_every_back() {
    let (table, mut steps) = (table_of(16, u16::MAX), Vec::new());
    let mut bag = 0;
    for period in 0..8 {
        let first = bag;
        steps.extend((1..=16).map(|peer| Step::Close { peer }));
        steps.extend((1..=16).map(|peer| Step::Hash { peer, period }));
        for peer in 1..=16 {
            steps.extend((first..first + 16).map(|entry| Step::Hear { peer, entry }));
        }
        steps.extend((1..=16).map(|peer| Step::Back { peer }));
        steps.push(Step::Publish { entry: first + 16 });
        steps.push(Step::Clear { period });
        bag += 17;
    }
    steps.extend((1..=16).flat_map(|peer| [Step::Back { peer }; 3]));
    steps.extend((1..=16).map(|peer| Step::Hash { peer, period: 0 }));
    let file = file_of(steps);
    let calls = run(&table, &file);
    // Of each period 16 hashes, 16 backings and a board; and 16 hashes again.
    assert_eq!((gain(&file), entered(&calls), was_full(&calls)), (280, 280, false));
}

/// A count of 256 cannot fill the bag; one of 257 can.
#[test]
fn one_more_than_256() {
    let table = table_of(16, 0);
    let lie = |k: usize| Step::FalseHash {
        peer: 1 + k % 16,
        period: k / 16 % 8,
        board: (k / 128) as u64,
    };
    let other = |period| Step::FalseBacking { peer: 1, period, board: 0 };
    for (more, full) in [(0, false), (1, true)] {
        let lies = (0..255 + more).map(lie);
        let file = file_of([Step::Post { item: 0 }].into_iter().chain(lies).chain([other(0)]));
        let calls = run(&table, &file);
        assert_eq!((gain(&file), was_full(&calls)), (256 + more, full));
        assert_eq!(entered(&calls), 256);
        // The last one again is answered as before, and not counted.
        let again = [file, file_of([other(0)])].concat();
        assert_eq!((gain(&again), was_full(&run(&table, &again))), (256 + more, full));
    }
}
