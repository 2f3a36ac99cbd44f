//! Slips posted on two days, of document 02's P6, on random runs: an honest peer
//! gives shares for an item in one period alone, on every table; that keeps items
//! from a second receipt, and with less honest weight than t not always.

mod common;

use common::{run_on_any_table, run_under_premise, Run};
use inputs::given::{periods_of_shares, receipted_twice};
use reference::form::{read_step, Step};
use reference::state::State;
use reference::step::step;
use std::collections::BTreeSet;

const RUNS: usize = 3_000;

/// A peer, a period and an item.
type Share = (usize, usize, usize);

/// The shares of honest peers by the accepted steps, each peer's for an item of one
/// period.
fn shares_of_one_period(run: &Run) -> BTreeSet<Share> {
    let calls = run.calls.iter().map(|(bytes, answer)| (&bytes[..], *answer));
    let mut shares = BTreeSet::new();
    for ((peer, item), periods) in periods_of_shares(calls) {
        assert_eq!(periods.len(), 1, "peer {peer}, item {item}: {periods:?}");
        shares.extend(periods.into_iter().map(|period| (peer, period, item)));
    }
    shares
}

/// No premise: the tables have any number of honest peers, from one up.
#[test]
fn shares_of_one_period_on_every_table() {
    let (mut shares, mut refused, mut too_few, mut seasons) = (0, 0, 0, [0; 3]);
    for number in 0..RUNS {
        let run = run_on_any_table(number);
        let given = shares_of_one_period(&run);
        let outside = run.state.shares.iter().filter(|share| run.table.is_honest(share.0));
        assert_eq!(outside.copied().collect::<BTreeSet<Share>>(), given, "run {number}");
        shares += given.len();
        refused += run.was_answered(17) as usize;
        too_few += (run.was_answered(17) && run.table.honest_weight() < run.table.t) as usize;
        seasons[run.table.season as usize] += run.was_answered(17) as usize;
    }
    println!("{shares} shares; a 17 in {refused} of {RUNS} runs");
    println!("with less honest weight than t in {too_few}, by seasons {seasons:?}");
    assert!(shares > 5_000 && refused > 300 && too_few > 50);
    assert!(seasons.iter().all(|times| *times > refused / 5));
}

/// The shares that were refused though the peer held a quorum's signatures.
fn withheld(run: &Run) -> BTreeSet<Share> {
    let (mut state, mut withheld) = (State::fresh(&run.table), BTreeSet::new());
    for (bytes, answer) in &run.calls {
        if let (17, Ok(Step::Share { peer, item })) = (answer, read_step(bytes)) {
            let p = state.peer(peer).p;
            if run.table.is_quorum(&state.peer(peer).signers(p, item)) {
                withheld.insert((peer, p, item));
            }
        }
        step(&run.table, &mut state, bytes);
    }
    withheld
}

/// The receipts that would have been the second of their items, had no share been
/// withheld.
fn spared(run: &Run) -> usize {
    let (withheld, receipts) = (withheld(run), &run.state.receipts);
    let is_second = |(period, item): &(usize, usize)| {
        let shares = run.state.shares.union(&withheld);
        let sharers = shares.filter(|share| share.1 == *period && share.2 == *item);
        run.table.is_quorum(&sharers.map(|share| share.0).collect())
            && !receipts.contains(&(*period, *item))
            && receipts.iter().any(|receipt| receipt.1 == *item)
    };
    let asked: BTreeSet<(usize, usize)> = withheld.iter().map(|share| (share.1, share.2)).collect();
    asked.iter().filter(|receipt| is_second(receipt)).count()
}

/// Under the premise no item has two receipts, and the shares that are withheld are
/// what keeps some from it.
#[test]
fn what_is_withheld_matters() {
    let (mut receipts, mut runs) = (0, 0);
    for number in 0..RUNS {
        let run = run_under_premise(number);
        assert_eq!(receipted_twice(&run.state), [].into(), "run {number}");
        let second = spared(&run);
        receipts += second;
        runs += (second > 0) as usize;
    }
    println!("{receipts} second receipts that were not given, in {runs} of {RUNS} runs");
    assert!(runs > 100);
}

/// The claim has teeth: with just too little honest weight, some items have two receipts.
#[test]
fn too_little_honest_weight_gives_two_receipts() {
    for n in [4, 7] {
        let runs = (0..RUNS).map(|number| Run::with_too_few(number, n));
        let twice: Vec<Run> = runs.filter(|run| !receipted_twice(&run.state).is_empty()).collect();
        let weighted = twice.iter().filter(|run| run.table.season.has_weights()).count();
        println!("{n} peers: two receipts in {} runs, {weighted} weighted", twice.len());
        assert!(twice.len() > 20 && weighted > 5);
    }
}
