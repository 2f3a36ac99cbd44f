//! The comparison can fail: each of the engines that document 01 wants rejected,
//! each that lets items be held which clash, each that gives shares by another rule, each
//! that weighs peers otherwise, and each that clears otherwise, differs from the reference
//! somewhere in a random run or on a lent state.

use engine::altered::{is_audit, must_be_found, table_with};
use engine::cleared;
use engine::given::{Asked, Case, COMBINATIONS};
use engine::pair::Pair;
use engine::wrong_clears::{BACKINGS_ASKED, DISHONEST_LEFT, RIGHT_CLEARS};
use engine::wrong_clears::{WRONG_FORMS, WRONG_REMOVALS, WRONG_TIMES};
use engine::wrong_shares::{LATER_COUNTED, RIGHT_SHARES, WRONG_ELSEWHERE, WRONG_SHARES};
use engine::wrong_weights::{RIGHT_WEIGHTS, WRONG_WEIGHTS};
use engine::{Engine, PLAIN};
use inputs::peers::Peers;
use inputs::random::{run_seed, Random};
use inputs::steps::random_steps;
use inputs::tables::{placed_season, Shape};
use inputs::unequal::unequal_table;
use reference::form::{read_step, Step};
use reference::table::read_table;

const RUNS: usize = 40;

fn wrong(name: &'static str, step: fn(&[u8], &mut [u8], &[u8]) -> u8) -> Engine {
    Engine { name, step, ..PLAIN }
}

/// The true answer, and no effect.
fn only_answer(table: &[u8], state: &mut [u8], step: &[u8]) -> u8 {
    (PLAIN.step)(table, &mut state.to_vec(), step)
}

fn peer_1_alone(table: &[u8], state: &mut [u8], step: &[u8]) -> u8 {
    match step.get(1) {
        Some(0 | 1) => (PLAIN.step)(table, state, step),
        _ => only_answer(table, state, step),
    }
}

/// Short, whether there are t or not.
fn short_before_counting(table: &[u8], state: &mut [u8], step: &[u8]) -> u8 {
    match (only_answer(table, state, step), step) {
        (0, [5 | 6 | 11 | 12, ..]) => 12,
        _ => (PLAIN.step)(table, state, step),
    }
}

/// One signer too many in the database of whoever signs.
fn invented_signer(table: &[u8], state: &mut [u8], step: &[u8]) -> u8 {
    let answer = (PLAIN.step)(table, state, step);
    if answer == 0 && step[0] == 3 {
        let sets = engine::layout::DATABASES + 1024 * (step[1] as usize - 1);
        let set = state[sets..sets + 1024].iter_mut().find(|byte| **byte != 0);
        set.into_iter().for_each(|byte| *byte = 0xFF);
    }
    answer
}

/// A hand as it would be if the item clashed with no other of its ballot that is so
/// beside it: these are of another ballot.
fn hand(
    table: &[u8],
    state: &mut [u8],
    step: &[u8],
    is_free: fn(handed: &[u8], other: &[u8]) -> bool,
) -> u8 {
    let items = read_table(table).map_or(Vec::new(), |table| table.items);
    let handed = match read_step(step) {
        Ok(Step::Hand { item, .. }) => items.get(item).map(|item| item.text()),
        _ => None,
    };
    let alter = |text: &mut Vec<u8>| {
        let is_other = |handed: &Vec<u8>| text[..4] == handed[..4] && text != handed;
        if handed.as_ref().is_some_and(|handed| is_other(handed) && is_free(handed, text)) {
            text[..4].fill(255);
        }
    };
    (PLAIN.step)(&table_with(table, alter), state, step)
}

fn are_audits(one: &[u8], other: &[u8]) -> bool {
    is_audit(one, 1) && is_audit(other, 1)
}

#[test]
fn every_wrong_engine_is_found() {
    all_found(
        &[
            wrong("peer 1 alone", peer_1_alone),
            wrong("short before counting", short_before_counting),
            wrong("a signer invented", invented_signer),
            wrong("nothing stored", only_answer),
            wrong("0 to all", |_, _, _| 0),
            wrong("all refused", |_, _, _| 12),
        ],
        |random| Shape { n: 4, periods: 3, m: 3 }.honest_table(random, 1),
    );
}

#[test]
fn every_wrong_clash_is_found() {
    all_found(
        &[
            wrong("places not compared", |table, state, step| hand(table, state, step, are_audits)),
            wrong("places compared by less than", |table, state, step| {
                hand(table, state, step, |one, other| are_audits(one, other) && one[5] < other[5])
            }),
            wrong("a vote beside a place", |table, state, step| {
                hand(table, state, step, |one, other| is_audit(one, 1) != is_audit(other, 1))
            }),
        ],
        |random| {
            let of_ballot_7 = |rest: [u8; 2]| [&[0, 0, 0, 7], &rest[..]].concat();
            let texts = [[2, 0], [2, 1], [2, 2], [2, 128], [2, 255], [1, 0]].map(of_ballot_7);
            let season = placed_season(random);
            let peers = Peers::of(random, season, 4);
            let liars = peers.liars(random, peers.least(), 1);
            peers.table(peers.least(), &liars, 3, &texts)
        },
    );
}

/// In runs on weighted tables, where numbers of peers would often decide otherwise.
#[test]
fn every_wrong_weight_is_found() {
    found_but(&WRONG_WEIGHTS, &RIGHT_WEIGHTS, unequal_table);
}

/// In runs from the fresh state, where no share is of a later period.
#[test]
fn every_wrong_share_is_found() {
    let table = |random: &mut Random| Shape { n: 4, periods: 8, m: 3 }.honest_table(random, 1);
    let is_later = |engine: &Engine| engine.name == LATER_COUNTED.name;
    let engines = WRONG_SHARES.into_iter().filter(|engine| !is_later(engine));
    let engines: Vec<Engine> = engines.chain(WRONG_ELSEWHERE).collect();
    found_but(&engines, &[RIGHT_SHARES], table);
}

/// On lent states, where the true engine is right.
#[test]
fn every_wrong_share_is_found_on_lent_states() {
    let seed = run_seed();
    let asked = |number| Asked::new(&mut Random::new(seed, number), Case::in_turn(number));
    let all: Vec<Asked> = (0..COMBINATIONS).map(asked).collect();
    let found = |engine: &Engine| all.iter().filter(|asked| asked.compare(engine).is_err()).count();
    for engine in WRONG_SHARES {
        must_be_found(engine.name, found(&engine));
    }
    assert_eq!((found(&PLAIN), found(&RIGHT_SHARES)), (0, 0));
}

/// In runs from the fresh state, where honest peers' counters say what backings the bag
/// has, and dishonest peers hear nothing. Now and then no peer is honest.
#[test]
fn every_wrong_clear_is_found() {
    let table = |random: &mut Random| {
        let (peers, shape) = (Peers::random(random, 4), Shape { n: 4, periods: 3, m: 3 });
        match random.once_in(3) {
            true => shape.table_with(random, &peers, peers.least(), &[1, 2, 3, 4]),
            false => shape.honest_table(random, 1),
        }
    };
    let is_lent = |engine: &&Engine| {
        [BACKINGS_ASKED, DISHONEST_LEFT].iter().any(|lent| lent.name == engine.name)
    };
    let engines = WRONG_TIMES.iter().chain(&WRONG_REMOVALS).filter(|engine| !is_lent(engine));
    let engines: Vec<Engine> = engines.chain(&WRONG_FORMS).copied().collect();
    found_but(&engines, &[RIGHT_CLEARS], table);
}

/// On lent states, where the true engine is right.
#[test]
fn every_wrong_clear_is_found_on_lent_states() {
    let seed = run_seed();
    let asked = |number| cleared::Asked::new(&mut Random::new(seed, number));
    let all: Vec<cleared::Asked> = (0..1_000).map(asked).collect();
    let found = |engine: &Engine| all.iter().filter(|asked| asked.compare(engine).is_err()).count();
    for engine in WRONG_TIMES.iter().chain(&WRONG_REMOVALS) {
        must_be_found(engine.name, found(engine));
    }
    assert_eq!((found(&PLAIN), found(&RIGHT_CLEARS)), (0, 0));
}

/// Each of the engines is found in some run on such tables.
fn all_found(engines: &[Engine], table: fn(&mut Random) -> Vec<u8>) {
    found_but(engines, &[], table);
}

/// The same, but those that are right are found in none.
fn found_but(wrong: &[Engine], right: &[Engine], table: fn(&mut Random) -> Vec<u8>) {
    let times = found(&[wrong, right].concat(), run_seed(), table);
    wrong.iter().zip(&times).for_each(|(engine, times)| must_be_found(engine.name, *times));
    assert_eq!(times[wrong.len()..], vec![0; right.len()]);
}

/// The number of runs on such tables in which each engine is found.
fn found(engines: &[Engine], seed: u64, table: fn(&mut Random) -> Vec<u8>) -> Vec<usize> {
    let mut times = vec![0; engines.len()];
    for number in 0..RUNS {
        let mut random = Random::new(seed, number);
        let text = table(&mut random);
        let found = differing(engines, &mut random, text);
        for (at, engine) in engines.iter().enumerate() {
            times[at] += found.contains(&engine.name) as usize;
        }
    }
    times
}

/// The engines that differ in a run, in which the true one does not.
fn differing(engines: &[Engine], random: &mut Random, text: Vec<u8>) -> Vec<&'static str> {
    let (mut pair, mut found) = (Pair::fresh(text), Vec::new());
    let mut left = [&[PLAIN], engines].concat();
    for _ in 0..600 {
        for step in random_steps(random, &pair.table, &pair.state) {
            found.extend(pair.differing(&left, &step).iter().map(|engine| engine.name));
            left.retain(|engine| !found.contains(&engine.name));
        }
        if left.len() == 1 {
            break;
        }
    }
    assert!(!found.contains(&PLAIN.name), "the true engine differs");
    found
}
