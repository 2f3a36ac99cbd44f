//! Shares on lent states, of document 02's P6: 17 exactly if the peer gave one for
//! the item in an earlier period, on every engine; and nothing else is refused so.

use engine::given::{Asked, Case, COMBINATIONS};
use engine::layout::encode;
use engine::ENGINES;
use inputs::answers::Answers;
use inputs::random::{run_seed, Random};
use inputs::steps::random_steps;
use reference::form::{write_step, Step};
use std::collections::BTreeMap;

const ANY: usize = 5_000;

/// What is due comes, from the reference and from every engine.
fn check(asked: &Asked, place: &str) {
    let Asked { case, pair, .. } = asked;
    let mut state = pair.state.clone();
    let answer = reference::step::step(&pair.table, &mut state, &asked.step());
    assert_eq!(answer, case.due(), "{place}, the reference: {case:?}");
    assert!(encode(&state) == asked.after(), "{place}, the reference: {case:?}");
    for engine in ENGINES {
        asked.compare(&engine).unwrap_or_else(|wrong| panic!("{place}, {wrong}: {case:?}"));
    }
}

/// Of 16 sets of four periods, 8, 12 and 14 have one before period 1, 2 and 3: so 34
/// are refused with 17 and 30 are not, beside each of 16 sets for others and 4 numbers
/// of signers, of which 2 are too few.
const DUE: [(u8, usize); 4] =
    [(0, 30 * 16 * 2), (9, 16 * 16 * 4), (12, 30 * 16 * 2), (17, 34 * 16 * 4)];

#[test]
fn every_combination() {
    let (seed, mut answers, mut seen) = (run_seed(), BTreeMap::new(), BTreeMap::new());
    for number in 0..COMBINATIONS {
        let case = Case::in_turn(number);
        check(&Asked::new(&mut Random::new(seed, number), case), &format!("seed {seed}"));
        *answers.entry(case.due()).or_insert(0) += 1;
        let key = (case.when(case.own), case.when(case.others), case.is_short());
        *seen.entry(key).or_insert(0) += 1;
    }
    println!("answers {answers:?}; the least of {} sorts {:?}", seen.len(), seen.values().min());
    assert_eq!(answers, DUE.into());
    // Before, in and after the open period: of the peer and of others; short or not.
    assert_eq!(seen.len(), 1 << 7);
}

/// Any number of periods; and 7, 8 and 9 come first, also where a share was given.
#[test]
fn any_case() {
    let (seed, mut seen, mut seasons) = (run_seed(), BTreeMap::new(), [0; 3]);
    for number in 0..ANY {
        let mut random = Random::new(!seed, number);
        let case = Case::any(&mut random);
        let asked = Asked::new(&mut random, case);
        check(&asked, &format!("seed {seed}, number {number}"));
        let [gave_before, _, _] = case.when(case.own);
        *seen.entry((case.due(), gave_before, case.is_short())).or_insert(0) += 1;
        seasons[asked.pair.table.season as usize] += 1;
    }
    println!("by answer, given before, short: {seen:?}; by seasons {seasons:?}");
    let both = [(7, true, true), (7, true, false), (8, true, false), (9, true, false)];
    let alone = [(0, false, false), (12, false, true), (17, true, true), (17, true, false)];
    assert!(both.iter().chain(&alone).all(|key| seen.get(key).is_some_and(|times| *times > 20)));
    assert!(seasons.iter().all(|times| *times > ANY / 4));
}

/// A peer that is refused a share may hold and sign the item again, and is refused
/// still. Of all other calls on such a state none but shares is refused so.
#[test]
fn held_and_signed_again() {
    let (seed, mut again, mut answers) = (run_seed(), 0, Answers::default());
    for number in 0..COMBINATIONS / 8 {
        let mut random = Random::new(seed, number);
        let case = Case::in_turn(random.below(COMBINATIONS));
        let Asked { mut pair, peer, item, .. } = Asked::new(&mut random, case);
        if case.due() == 17 {
            // What it holds could clash.
            pair.state.peer_mut(peer).held.clear();
            pair.buffer = encode(&pair.state);
            let steps = [Step::Post { item }, Step::Hand { peer, item }, Step::Sign { peer, item }];
            let done = steps.map(|step| pair.call(&write_step(step)));
            let refused = pair.call(&write_step(Step::Share { peer, item }));
            assert_eq!((done, refused), ([0; 3], 17), "seed {seed}, number {number}: {case:?}");
            again += 1;
        }
        for _ in 0..10 {
            for step in random_steps(&mut random, &pair.table, &pair.state).iter().take(8) {
                let answer = pair.call(step);
                assert!(answer != 17 || step[0] == 5, "seed {seed}, number {number}: {step:?}");
                answers.count(step, answer);
            }
        }
    }
    println!("held and signed again {again} times\n{answers}");
    assert!(again > 100 && answers.times(17) > 100);
}
