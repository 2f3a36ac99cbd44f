//! Weighted tables, of document 02's P8: small headers with every weight and every
//! threshold; and tables with weights of 1, which are what tables of the new season are.

use engine::layout::LENGTH;
use engine::pair::Pair;
use engine::shrunk::written;
use engine::tables::same_answer;
use engine::{board_report_most, Engine, ENGINES};
use inputs::damaged::damaged_table;
use inputs::kinds::{rehearsal, round};
use inputs::random::{run_seed, Random};
use inputs::refused::{shortened, MOST_STEPS};
use inputs::steps::random_steps;
use inputs::tables::Shape;
use inputs::weights::with_ones;
use reference::report::INPUT_SIZE;
use reference::season::Season;
use std::collections::BTreeMap;

/// One to four peers, each weight from 0 to 5, and t from 0 to 20: a table is taken if
/// every weight is 1 to 4 and 2W < 3t <= 3W.
#[test]
fn every_small_header() {
    let mut taken = [0; 2];
    for n in 1..=4 {
        for number in 0..6usize.pow(n) {
            let weights: Vec<u8> = (0..n).map(|k| (number / 6usize.pow(k) % 6) as u8).collect();
            let sum: u8 = weights.iter().sum();
            let are_weights = weights.iter().all(|weight| (1..=4).contains(weight));
            for t in 0..=20 {
                let is_due = are_weights && 2 * sum < 3 * t && 3 * t <= 3 * sum;
                let table = [&[0, 3, n as u8, t, 0, 0, 1, 0], &weights[..]].concat();
                assert_eq!(same_answer(&table), !is_due as u8, "{table:?}");
                taken[is_due as usize] += 1;
            }
        }
    }
    println!("refused and taken {taken:?}");
    assert!(taken[1] > 500);
}

/// Whether bytes start as a table of the new season does.
fn is_new(bytes: &[u8]) -> bool {
    Season::of(bytes) == Season::New
}

/// Damaged tables too: with weights of 1 each is judged as it is without.
#[test]
fn weights_of_1_are_judged_as_none() {
    let (seed, mut seen) = (run_seed(), BTreeMap::<u8, usize>::new());
    for number in 0..15_000 {
        let table = damaged_table(&mut Random::new(seed, number));
        if is_new(&table) {
            let answer = same_answer(&table);
            assert_eq!(same_answer(&with_ones(&table)), answer, "seed {seed}: {table:?}");
            *seen.entry(answer).or_default() += 1;
        }
    }
    println!("answers {seen:?}");
    assert!([0, 1, 2, 3, 4].iter().all(|answer| seen[answer] > 50));
}

/// The same steps on both tables: the same answers, and the same bytes after each.
#[test]
fn weights_of_1_step_for_step() {
    let (seed, mut calls) = (run_seed(), 0);
    for number in 0..80 {
        let mut random = Random::new(seed, number);
        let shape = Shape::random(&mut random, [1, 3, 5, 16][number % 4]);
        let text = shape.table_of(&mut random, Season::New);
        let [mut none, mut ones] = [Pair::fresh(text.clone()), Pair::fresh(with_ones(&text))];
        for _ in 0..200 {
            for step in random_steps(&mut random, &none.table, &none.state) {
                let answers = [none.call(&step), ones.call(&step)];
                assert_eq!(answers[0], answers[1], "seed {seed}, number {number}: {step:?}");
                assert!(none.buffer == ones.buffer, "seed {seed}, number {number}: {step:?}");
                calls += 1;
            }
        }
    }
    println!("{calls} calls");
    assert!(calls > 20_000);
}

/// An engine's report, and what it leaves of a short rehearsal.
fn outputs(engine: &Engine, input: &[u8]) -> (Vec<u8>, Vec<u8>) {
    let (mut state, mut out) = (vec![0; LENGTH], vec![0; board_report_most()]);
    let length = (engine.rehearse)(input, &mut state, &mut out);
    out.truncate(length);
    (out, written(engine, input))
}

/// Whole rehearsals of every kind: the same reports, and the same steps are left.
#[test]
fn weights_of_1_in_rehearsals() {
    let (seed, mut seen) = (run_seed(), [0; 2]);
    for number in 0..4 * round() {
        let (kind, input) = rehearsal(seed, number);
        let input = shortened(input, MOST_STEPS);
        if !is_new(&input) || with_ones(&input).len() > INPUT_SIZE {
            continue;
        }
        for engine in ENGINES {
            let [none, ones] = [&input, &with_ones(&input)].map(|input| outputs(&engine, input));
            let place = format!("seed {seed}, number {number}, {}, {}", kind.name, engine.name);
            assert!(none == ones, "{place}");
            seen[none.0.starts_with(b"refused ") as usize] += 1;
        }
    }
    println!("reports and refusals {seen:?}");
    assert!(seen[0] > 300 && seen[1] > 50);
}
