//! Step files counted, of document 02's P11, new ones in each run: the same counts, and
//! every wrong one is found.

use engine::altered::must_be_found;
use engine::cleared::Asked;
use engine::wrong_gains::{RIGHT_GAIN, WRONG_GAINS};
use engine::{Engine, ENGINES, PLAIN};
use inputs::random::{run_seed, Random};
use inputs::sorts::in_turn;
use inputs::step_files::SORTS;
use inputs::steps::random_steps;
use reference::form::STEP_LENGTH;
use reference::gain::gain;

const FILES: usize = 3_000;

/// How many steps of a file the proved engine goes through at once.
const BLOCK: usize = 8_192;

#[test]
fn same_counts() {
    let (seed, mut counts, mut tails, mut long, mut longer) = (run_seed(), Vec::new(), 0, 0, 0);
    for number in 0..FILES {
        let (sort, file) = in_turn(&SORTS, seed, number);
        let due = gain(&file);
        for Engine { name, gain, .. } in ENGINES {
            let place = format!("seed {seed}, number {number}, {}, {name}", sort.name);
            assert_eq!(gain(&file), due, "{place}");
        }
        counts.push(due);
        tails += !file.len().is_multiple_of(STEP_LENGTH) as usize;
        long += (file.len() > 65_536) as usize;
        longer += (file.len() > BLOCK * STEP_LENGTH) as usize;
    }
    let at_most = |most: usize| counts.iter().filter(|count| **count <= most).count();
    let (none, few) = (at_most(0), at_most(256));
    println!("{none} counts of 0, {few} of at most 256, the most {:?}", counts.iter().max());
    println!("{tails} files with a short tail, {long} longer than the program takes");
    println!("{longer} with more steps than the proved engine takes at once");
    assert!(none > 100 && few - none > 500 && FILES - few > 100 && tails > 500);
    assert!(long > 100 && longer > 100);
}

/// On lent states the bag gains no more than the count either.
#[test]
fn never_more_on_lent_states() {
    let (seed, mut entered, mut reached) = (run_seed(), 0, 0);
    for number in 0..1_500 {
        let mut random = Random::new(seed, number);
        let (mut pair, mut file, mut gained) = (Asked::new(&mut random).pair, Vec::new(), 0);
        for _ in 0..random.between(1, 40) {
            for step in random_steps(&mut random, &pair.table, &pair.state) {
                let before = pair.state.bag.len();
                pair.call(&step);
                gained += pair.state.bag.len().saturating_sub(before);
                // Others than 13 bytes count nothing, and bring nothing.
                file.extend((step.len() == STEP_LENGTH).then_some(step).into_iter().flatten());
            }
        }
        let count = gain(&file);
        assert!(gained <= count, "seed {seed}, number {number}: {gained} of {count}");
        entered += gained;
        reached += (gained == count && count > 0) as usize;
    }
    println!("{entered} entries; {reached} files that reach their count");
    assert!(entered > 300 && reached > 5);
}

#[test]
fn every_wrong_count_is_found() {
    let seed = run_seed();
    let files: Vec<Vec<u8>> = (0..600).map(|number| in_turn(&SORTS, seed, number).1).collect();
    let found =
        |engine: &Engine| files.iter().filter(|file| (engine.gain)(file) != gain(file)).count();
    for engine in WRONG_GAINS {
        must_be_found(engine.name, found(&engine));
    }
    assert_eq!((found(&PLAIN), found(&RIGHT_GAIN)), (0, 0));
}
