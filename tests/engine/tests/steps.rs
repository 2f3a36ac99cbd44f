//! Long random step lists from the fresh state: the same answers and bytes.

use engine::pair::Pair;
use inputs::answers::Answers;
use inputs::period::{can_fill, false_hashes, filled, posts};
use inputs::places::{is_clash_of_places, receipts_of_places};
use inputs::quorums::{asked, Decided};
use inputs::random::{run_seed, Random};
use inputs::steps::{all_items, liars, random_steps};
use inputs::tables::random_table;
use inputs::unequal::unequal_table;
use reference::form::{write_step, Step};

/// What the runs had.
#[derive(Default)]
struct Seen {
    answers: Answers,
    /// Those on weighted tables, and what weights decided there.
    weighted: Answers,
    decided: Decided,
    boards: usize,
    boards_with_items: usize,
    full_bags: usize,
    /// By seasons.
    runs: [usize; 3],
    clashes_of_places: usize,
    receipts_of_places: usize,
    /// The shares refused since one was given, by seasons.
    given: [usize; 3],
}

impl Seen {
    /// What a run came to.
    fn add(&mut self, pair: &Pair) {
        let boards = pair.state.boards();
        self.boards += boards.len();
        self.boards_with_items += boards.iter().filter(|board| !board.1.is_empty()).count();
        self.runs[pair.table.season as usize] += 1;
        self.receipts_of_places += receipts_of_places(&pair.table, &pair.state);
    }
}

fn call(pair: &mut Pair, seen: &mut Seen, step: &[u8]) {
    let asked = asked(&pair.table, &pair.state, step);
    let answer = pair.call(step);
    seen.answers.count(step, answer);
    if pair.table.season.has_weights() {
        seen.weighted.count(step, answer);
        seen.decided.count(&pair.table, &asked, answer);
    }
    seen.clashes_of_places += is_clash_of_places(&pair.table, step, answer) as usize;
    seen.given[pair.table.season as usize] += (answer == 17) as usize;
}

fn run(pair: &mut Pair, random: &mut Random, seen: &mut Seen, rounds: usize) {
    for _ in 0..rounds {
        for step in random_steps(random, &pair.table, &pair.state) {
            call(pair, seen, &step);
        }
    }
}

/// The dishonest peers back one board, and then hash others until the bag is
/// full.
fn fill(pair: &mut Pair, random: &mut Random, seen: &mut Seen) {
    let board = random.bits() & all_items(pair.table.m());
    let back = |peer| Step::FalseBacking { peer, period: 0, board };
    let lies = liars(&pair.table).into_iter().map(back).chain(false_hashes(random, &pair.table));
    for step in posts(&pair.table).chain(lies) {
        call(pair, seen, &write_step(step));
    }
}

/// A run that fills the bag when it hurts the most.
fn run_filled(random: &mut Random, seen: &mut Seen) {
    let making = filled(random);
    let mut pair = Pair::fresh(making.text);
    making.steps.iter().for_each(|step| call(&mut pair, seen, step));
}

/// A run on a table; the bag may fill, and then it goes on.
fn run_on(text: Vec<u8>, random: &mut Random, seen: &mut Seen) {
    let mut pair = Pair::fresh(text);
    run(&mut pair, random, seen, 300);
    if can_fill(&pair.table) {
        fill(&mut pair, random, seen);
        run(&mut pair, random, seen, 100);
        seen.full_bags += 1;
    }
    seen.add(&pair);
}

#[test]
fn same_answers_and_bytes() {
    let (seed, mut seen) = (run_seed(), Seen::default());
    for number in 0..300 {
        let mut random = Random::new(seed, number);
        let text = random_table(&mut random, [1, 3, 5, 16][number % 4]);
        run_on(text, &mut random, &mut seen);
        if number.is_multiple_of(20) {
            run_filled(&mut random, &mut seen);
        }
    }
    let Seen { answers, boards, boards_with_items, full_bags, .. } = &seen;
    println!("{} calls; boards {boards}, with items {boards_with_items}", answers.calls());
    println!("full bags {full_bags}\n{answers}");
    let Seen { runs, clashes_of_places, receipts_of_places, given, .. } = seen;
    println!("by seasons: runs {runs:?}, shares given before {given:?}");
    println!(
        "{clashes_of_places} clashes of two places, {receipts_of_places} receipts for one of them"
    );
    assert_eq!(answers.wrong(), [""; 0]);
    assert!(*boards > 50 && *boards_with_items > 20 && *full_bags > 5);
    assert!(runs.iter().all(|runs| *runs > 60));
    assert!(clashes_of_places > 10 && receipts_of_places > 3);
    assert!(given.iter().all(|times| *times > 200));
}

/// On weighted tables, where numbers of peers would often decide otherwise. Few tables have a back of many peers that
/// weigh too little, and some seeds none among 150: then more are tried.
#[test]
fn same_answers_and_bytes_with_weights() {
    let (seed, mut seen) = (run_seed(), Seen::default());
    for number in 0..600 {
        if number >= 150 && seen.decided.rare(5).is_empty() {
            break;
        }
        let mut random = Random::new(!seed, number);
        let text = unequal_table(&mut random);
        run_on(text, &mut random, &mut seen);
        if number.is_multiple_of(10) {
            run_filled(&mut random, &mut seen);
        }
    }
    println!("{}\n{:?}", seen.weighted, seen.decided);
    assert_eq!(seen.weighted.wrong(), [""; 0]);
    assert_eq!(seen.decided.rare(5), [""; 0]);
}
