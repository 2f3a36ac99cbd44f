//! Closes from lent states, of document 02's P3: whatever the state has, if no take of the
//! period is accepted meanwhile, the board of the union is backed by all and can be
//! published on every engine. With takes of what no database has it need not be so.

use engine::closes::{Called, Ran};
use engine::seen::{alike, between, is_take_of, weighed, Hits};
use engine::through::{backings, boards};
use inputs::clears::is_hash_of;
use inputs::closes::Takes;
use inputs::lent_closes::lent_close;
use inputs::random::{run_seed, Random};
use reference::form::Step;
use reference::state::{Board, Entry, Peer};
use reference::union::union;
use std::collections::BTreeSet;

const CLOSES: usize = 2_560;
const TAKEN: usize = 500;

/// Most are in document 02's own order: of each number of peers, four in five.
fn is_in_turn(number: usize) -> bool {
    number / 128 % 5 != 4
}

/// A close that has all that P3 asks but for what is taken meanwhile.
fn ran(random: &mut Random, number: usize, takes: Takes) -> Ran {
    let in_turn = is_in_turn(number);
    let ran = Ran::lent(&lent_close(random, number, takes, in_turn));
    assert_eq!(ran.lacks(), None, "number {number}");
    assert!(!in_turn || ran.is_in_turn(), "number {number}: another order");
    ran
}

/// What P3 promises, also after any further calls. Publishes at both places.
fn comes_through(random: &mut Random, ran: &Ran, hits: &mut Hits) -> Result<(), String> {
    ran.comes_through()?;
    let [mut now, mut then] = [ran.pair.clone(), ran.after_any_calls(random)];
    ran.is_backed(&then)?;
    let older = boards(&now.state, ran.period);
    let answers = [ran.publish(random, &mut now)?, ran.publish(random, &mut then)?];
    let is_new = answers[0] == 0 && !older.contains(&ran.board);
    hits.add("published as the first board", is_new && older.is_empty());
    hits.add("published beside an older board", is_new && !older.is_empty());
    hits.add("full after the exchange", answers[0] == 13);
    hits.add("full at a later place", answers[1] == 13);
    Ok(())
}

/// Whether some step of the exchange takes a signature of the period that no database
/// had.
fn takes_new(ran: &Ran) -> bool {
    let known = union(&ran.start, ran.period);
    ran.any(|step| match step {
        Step::Take { other, item, .. } if is_take_of(step, ran.period) => {
            !known.get(item).is_some_and(|signers| signers.contains(other))
        }
        _ => false,
    })
}

/// What the lent state has outside and in the databases that no steps lead to.
fn stray_signers(ran: &Ran, hits: &mut Hits) {
    let (table, p, start) = (&ran.pair.table, ran.period, &ran.start);
    let known = union(start, p);
    let signers = |item: usize| known.get(&item).cloned().unwrap_or_default();
    let outside = |item: usize, signer: usize| start.signatures.contains(&(signer, p, item));
    let stray = |(k, q, i): &(usize, usize, usize)| *q == p && !signers(*i).contains(k);
    hits.add("a stray signature", start.signatures.iter().any(stray));
    let with_strays = |item: usize| {
        let signed = (1..=table.n).filter(|k| outside(item, *k));
        let all: BTreeSet<usize> = signed.chain(signers(item)).collect();
        !ran.board.contains(&item) && table.is_quorum(&all)
    };
    hits.add("enough with stray signatures", (0..table.m()).any(with_strays));
    let unsigned = |item: usize| signers(item).into_iter().any(|k| !outside(item, k));
    hits.add("a signer without a signature", (0..table.m()).any(unsigned));
}

/// What it has in the bag, and in the counters.
fn stray_entries(ran: &Ran, hits: &mut Hits) {
    let (p, start, own) = (ran.period, &ran.start, &ran.board);
    let backed: Vec<Board> = backings(start, p).into_values().map(|(_, board)| board).collect();
    let (published, other) = (boards(start, p), |board: &Board| board != own);
    hits.add("a stray backing of another board", backed.iter().any(other));
    hits.add("a stray backing of the board", backed.contains(own));
    hits.add("a back that finds its backing", ran.calls.iter().any(|call| call.is_there));
    hits.add("another board published before", published.iter().any(other));
    hits.add("the board published before", published.contains(own));
    let heard = |peer: &Peer| peer.heard.iter().any(|e| is_hash_of(&start.bag[*e], p));
    hits.add("a hash of the period heard before", start.peers.iter().any(heard));
    let others = || (0..ran.pair.table.periods).filter(|q| *q != p);
    let of_other = |entry: &Entry| others().any(|q| is_hash_of(entry, q));
    hits.add("a hash of another period", start.bag.iter().any(of_other));
    hits.add("a counter beyond the next", start.peers.iter().any(|peer| peer.p > p + 1));
}

/// Of every number of peers, in document 02's order.
#[test]
fn closes_come_through() {
    let (seed, mut hits, mut calls, mut sizes) = (run_seed(), Hits::default(), 0, [0; 17]);
    for number in 0..CLOSES {
        let mut random = Random::new(seed, number);
        let ran = ran(&mut random, number, Takes::None);
        assert!(!ran.any(|step| is_take_of(step, ran.period)), "seed {seed}, number {number}");
        comes_through(&mut random, &ran, &mut hits)
            .unwrap_or_else(|wrong| panic!("seed {seed}, number {number}: {wrong}"));
        between(&ran, &mut hits);
        alike(&ran, &mut hits);
        weighed(&ran, &mut hits);
        stray_signers(&ran, &mut hits);
        stray_entries(&ran, &mut hits);
        let refused = |call: &Called| {
            call.answer != 0 && call.step.is_some_and(|step| is_take_of(&step, ran.period))
        };
        hits.add("a refused take of the period", ran.calls.iter().any(refused));
        sizes[ran.pair.table.n] += is_in_turn(number) as usize;
        calls += ran.calls.len();
    }
    println!("{CLOSES} closes with {calls} calls\n{hits:#?}\nin turn, by n {:?}", &sizes[1..]);
    assert_eq!(hits.rare(20), [""; 0], "seed {seed}");
    assert!(sizes[1..].iter().all(|times| *times > 10) && sizes.iter().sum::<usize>() >= 2_000);
}

/// What some database has already may be taken.
#[test]
fn takes_of_what_is_known() {
    let (seed, mut hits, mut taken) = (run_seed(), Hits::default(), 0);
    for number in 0..TAKEN {
        let mut random = Random::new(!seed, number);
        let ran = ran(&mut random, number, Takes::Known);
        assert!(!takes_new(&ran), "seed {seed}, number {number}");
        comes_through(&mut random, &ran, &mut hits)
            .unwrap_or_else(|wrong| panic!("seed {seed}, number {number}: {wrong}"));
        taken += ran.any(|step| is_take_of(step, ran.period)) as usize;
    }
    println!("{TAKEN} closes, {taken} with takes of the period\n{hits:#?}");
    assert!(taken > TAKEN / 2, "seed {seed}");
}

/// With takes of what no database has some closes come to nothing: the union is another
/// then, and peers that have different boards of it cannot back. Without them all come
/// through.
#[test]
fn takes_of_what_is_new() {
    let (seed, mut hits) = (run_seed(), Hits::default());
    for number in 0..TAKEN {
        let mut random = Random::new(seed ^ 1, number);
        let ran = ran(&mut random, number, Takes::Some);
        let (new, wrong) = (takes_new(&ran), ran.comes_through().is_err());
        assert_eq!(new, wrong, "seed {seed}, number {number}: {:?}", ran.comes_through());
        let due = |peer: &Peer| peer.c == ran.period;
        hits.add("a new take", new);
        hits.add("no new take", !new);
        hits.add("not all have backed the board", ran.is_backed(&ran.pair).is_err());
        hits.add("nobody can back", ran.pair.state.peers.iter().all(due));
    }
    println!("{TAKEN} closes\n{hits:#?}");
    assert_eq!(hits.rare(5), [""; 0], "seed {seed}");
}
