//! Closes that come through, of document 02's P3: on every engine the board of the
//! union is backed by all and can be published. And closes that lack one thing.

use engine::closes::Ran;
use engine::seen::{alike, between, is_take_of, weighed, Hits};
use engine::through::{backings, boards};
use inputs::closes::{close, wrong_close, Lack};
use inputs::random::{run_seed, Random};
use reference::form::{read_step, Step};
use reference::table::{Table, LEAST_THRESHOLD};
use reference::union::union_board;
use std::collections::BTreeMap;

const CLOSES: usize = 3_000;
const WRONG: usize = 500;

/// Publishes directly after the exchange, and on a copy after any calls: the two
/// answers. The board is the period's only one.
fn publish_twice(random: &mut Random, ran: &Ran) -> Result<[u8; 2], String> {
    let mut answers = [0; 2];
    for (at, mut pair) in [ran.pair.clone(), ran.after_any_calls(random)].into_iter().enumerate() {
        answers[at] = ran.publish(random, &mut pair)?;
        let boards = boards(&pair.state, ran.period);
        if boards.iter().any(|board| *board != ran.board) {
            return Err(format!("boards {boards:?}"));
        }
    }
    Ok(answers)
}

#[test]
fn closes_come_through() {
    let (seed, mut hits, mut calls) = (run_seed(), Hits::default(), 0);
    let mut sizes: BTreeMap<(bool, usize, usize), usize> = BTreeMap::new();
    for number in 0..CLOSES {
        let mut random = Random::new(seed, number);
        let made = close(&mut random, number);
        let ran = Ran::new(&made);
        let which = format!("seed {seed}, number {number}");
        assert_eq!(ran.lacks(), None, "{which}");
        assert_eq!(ran.comes_through(), Ok(()), "{which}");
        let answers = publish_twice(&mut random, &ran).expect(&which);
        between(&ran, &mut hits);
        alike(&ran, &mut hits);
        weighed(&ran, &mut hits);
        hits.add("a take of the period", ran.any(|step| is_take_of(step, ran.period)));
        let down = |bytes: &Vec<u8>| matches!(read_step(bytes), Ok(Step::Down { .. }));
        hits.add("a peer down before", made.earlier.iter().any(down));
        hits.add("full after the exchange", answers[0] == 13);
        hits.add("full at a later place", answers[1] == 13);
        let Table { season, n, t, .. } = ran.pair.table;
        *sizes.entry((season.has_weights(), n, t)).or_default() += 1;
        calls += made.earlier.len() + made.later.len();
    }
    println!("{CLOSES} closes with {calls} calls\n{hits:#?}\nby weights, n and t {sizes:?}");
    assert_eq!(hits.rare(1), [""; 0], "seed {seed}");
    let all = (1..=16).flat_map(|n| (LEAST_THRESHOLD[n - 1]..=n).map(move |t| (false, n, t)));
    assert!(all.into_iter().all(|size| sizes.contains_key(&size)), "{sizes:?}");
    let is_weighted = |n: usize| sizes.keys().any(|size| size.0 && size.1 == n);
    assert!((1..=16).all(is_weighted), "{sizes:?}");
}

/// Closes that lack one thing. In some of them the calls between make up for it;
/// they come through. Of the others, which lack what is named, some do not.
fn some_fail(lack: Lack, named: &'static str) -> Vec<Ran> {
    let (seed, mut seen, mut failed) = (run_seed(), BTreeMap::new(), Vec::new());
    for number in 0..WRONG {
        let ran = Ran::new(&wrong_close(&mut Random::new(!seed, number), lack));
        let (lacks, result) = (ran.lacks(), ran.comes_through());
        let (times, fails) = seen.entry(lacks).or_insert((0, 0));
        (*times, *fails) = (*times + 1, *fails + result.is_err() as usize);
        assert!(lacks.is_some() || result.is_ok(), "seed {seed}, number {number}: {result:?}");
        if lacks == Some(named) && result.is_err() {
            failed.push(ran);
        }
    }
    println!("{lack:?}: {seen:?}");
    assert!(!failed.is_empty(), "seed {seed}: all come through");
    failed
}

#[test]
fn a_hash_before_a_fetch() {
    some_fail(Lack::HashAfterFetches, "hashes after fetches");
}

#[test]
fn a_backing_before_the_last_fetch() {
    some_fail(Lack::BackingAfterFetches, "no early backing");
}

#[test]
fn a_refused_back_before_the_last_fetch() {
    some_fail(Lack::BackAfterFetches, "backs after fetches and hears");
}

#[test]
fn its_own_hash_not_heard() {
    some_fail(Lack::OwnHash, "backs after fetches and hears");
}

#[test]
fn a_peer_that_stays_down() {
    some_fail(Lack::AllUp, "none down");
}

/// Where nobody fetches from some peer, the others have the union of their own
/// databases, and that is another board now and then.
#[test]
fn a_fetch_left_out() {
    let failed = some_fail(Lack::Fetch, "every fetch");
    let others = failed.iter().filter(|ran| backs_without_one(ran)).count();
    println!("another board backed by a quorum: {others}");
    assert!(others > 0);
}

/// Whether a quorum backs the board of the union without a peer from whom nobody
/// fetches, and it is another board.
fn backs_without_one(ran: &Ran) -> bool {
    let (table, p) = (&ran.pair.table, ran.period);
    let is_from = |step: &Step, k: usize| match step {
        Step::Fetch { other, period, .. } => *other == k && *period == p,
        _ => false,
    };
    let alone = (1..=table.n).filter(|k| !ran.any(|step| is_from(step, *k)));
    let mut boards = alone.map(|k| {
        let mut state = ran.start.clone();
        state.peer_mut(k).database.clear();
        union_board(table, &state, p)
    });
    boards.any(|board| {
        let backed =
            backings(&ran.pair.state, p).into_values().filter(|(_, other)| *other == board);
        board != ran.board && table.is_quorum(&backed.map(|(signer, _)| signer).collect())
    })
}
