//! Clears on lent states, of document 02's P11: the period's hashes go exactly if every
//! honest peer has backed it, by its counter, on every engine; the rest is numbered afresh.

use engine::cleared::Asked;
use engine::layout::encode;
use engine::ENGINES;
use inputs::answers::Answers;
use inputs::random::{run_seed, Random};
use inputs::steps::random_steps;
use std::collections::BTreeMap;

const CASES: usize = 4_000;

/// What is due comes, from the reference and from every engine.
fn check(asked: &Asked, place: &str) {
    let Asked { pair, due, after, .. } = asked;
    let mut state = pair.state.clone();
    let answer = reference::step::step(&pair.table, &mut state, &asked.step());
    assert_eq!(answer, *due, "{place}, the reference");
    assert!(state == *after, "{place}, the reference: another state");
    for engine in ENGINES {
        asked.compare(&engine).unwrap_or_else(|wrong| panic!("{place}, {wrong}"));
    }
}

#[test]
fn on_lent_states() {
    let (seed, mut answers, mut seen) = (run_seed(), BTreeMap::new(), BTreeMap::new());
    for number in 0..CASES {
        let asked = Asked::new(&mut Random::new(seed, number));
        check(&asked, &format!("seed {seed}, number {number}"));
        *answers.entry(asked.due).or_insert(0) += 1;
        for (name, hit) in asked.has() {
            *seen.entry(name).or_insert(0) += hit as usize;
        }
    }
    println!("answers {answers:?}; seen {seen:?}");
    assert_eq!(answers.keys().copied().collect::<Vec<u8>>(), [0, 6, 9]);
    assert!(answers.values().all(|times| *times > 50));
    let rare: Vec<_> = seen.iter().filter(|(_, times)| **times < 20).collect();
    assert!(rare.is_empty(), "seen too rarely: {rare:?}");
}

/// A clear and then any calls on such a state: the same answers and bytes, and a clear
/// again changes nothing.
#[test]
fn and_calls_after_it() {
    let (seed, mut answers, mut again) = (run_seed(), Answers::default(), 0);
    for number in 0..CASES / 4 {
        let mut random = Random::new(!seed, number);
        let asked = Asked::new(&mut random);
        let mut pair = asked.pair.clone();
        assert_eq!(pair.call(&asked.step()), asked.due, "seed {seed}, number {number}");
        let before = pair.buffer.clone();
        assert_eq!(pair.call(&asked.step()), asked.due, "seed {seed}, number {number}");
        assert!(pair.buffer == before && before == encode(&asked.after));
        again += (asked.due == 0) as usize;
        for _ in 0..20 {
            for step in random_steps(&mut random, &pair.table, &pair.state).iter().take(8) {
                answers.count(step, pair.call(step));
            }
        }
    }
    println!("{again} clears again\n{answers}");
    let often = [0, 9, 10, 12].iter().all(|answer| answers.times(*answer) > 50);
    assert!(again > 100 && often && answers.times(13) > 5);
}
