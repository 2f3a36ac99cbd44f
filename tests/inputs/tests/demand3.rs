//! Demand 3 on random runs: the posts, receipts and boards held outside are
//! those of the ideal board, every move of which was allowed. And with them that no
//! item has receipts in two periods.

mod common;

use common::{are_many, run_under_premise, Run};
use inputs::given::receipted_twice;
use inputs::places::{is_clash_of_places, receipts_of_places};
use reference::ideal::reaches_honest_share;
use reference::state::State;
use reference::step::step;
use std::collections::{BTreeMap, BTreeSet};

const RUNS: usize = 10_000;

/// The single claim: equal posts, receipts and boards, every move allowed.
fn equals_ideal_board(run: &Run) -> bool {
    run.ideal.all_allowed
        && run.ideal.posts == run.state.posted
        && run.ideal.receipts == run.state.receipts
        && run.ideal.boards == run.state.boards()
}

#[test]
fn the_ideal_board_on_random_runs() {
    let mut tally = Tally::default();
    for number in 0..RUNS {
        let run = run_under_premise(number);
        assert!(equals_ideal_board(&run), "run {number}");
        no_clash_outside(&run);
        one_receipt_an_item(&run);
        one_board_a_period(&run);
        receipted_items_are_on_the_board(&run);
        board_items_are_posted_and_signed(&run);
        boards_stand_unchanged(&run);
        tally.add(&run);
    }
    println!("{tally:?}");
    tally.shows_enough();
}

/// No two clashing items among all receipts and published boards.
fn no_clash_outside(run: &Run) {
    let mut items: BTreeSet<usize> = run.state.receipts.iter().map(|(_, item)| *item).collect();
    for (_, board) in run.state.boards() {
        items.extend(board);
    }
    for x in &items {
        assert!(!items.iter().any(|y| run.table.clash(*x, *y)));
    }
}

fn one_receipt_an_item(run: &Run) {
    assert_eq!(receipted_twice(&run.state), [].into());
}

fn one_board_a_period(run: &Run) {
    let boards = run.state.boards();
    let periods: BTreeSet<usize> = boards.iter().map(|(period, _)| *period).collect();
    assert_eq!(periods.len(), boards.len());
}

fn receipted_items_are_on_the_board(run: &Run) {
    for (period, board) in run.state.boards() {
        for (_, item) in run.state.receipts.iter().filter(|(q, _)| *q == period) {
            assert!(board.contains(item));
        }
    }
}

/// By honest peers of at least t plus the honest weight less W, in that period.
fn board_items_are_posted_and_signed(run: &Run) {
    for (period, board) in run.state.boards() {
        for item in board {
            assert!(run.ideal.posts.contains(&item));
            assert!(reaches_honest_share(&run.table, &run.ideal.honest_signers(period, item)));
        }
    }
}

/// The items on boards that fewer than t + h − n honest peers signed.
fn items_of_few_signers(run: &Run) -> usize {
    let (table, boards) = (&run.table, run.state.boards());
    let items = boards.iter().flat_map(|(period, board)| board.iter().map(|item| (*period, *item)));
    let signers = items.map(|(period, item)| run.ideal.honest_signers(period, item).len());
    signers.filter(|count| count + table.n < table.t + table.honest_count()).count()
}

/// The same calls once more: the same answers, and after each of them the
/// boards are the first ones of those at the end.
fn boards_stand_unchanged(run: &Run) {
    let last = run.state.boards();
    let mut state = State::fresh(&run.table);
    for (bytes, answer) in &run.calls {
        assert_eq!(step(&run.table, &mut state, bytes), *answer);
        if bytes.first() == Some(&12) {
            assert!(last.starts_with(&state.boards()));
        }
    }
    assert_eq!(state, run.state);
}

/// What the runs held, so that the claims above are not empty.
#[derive(Debug, Default)]
struct Tally {
    steps: usize,
    answers: BTreeMap<u8, usize>,
    receipts: usize,
    boards: usize,
    items_on_boards: usize,
    runs_with_receipt_after_board: usize,
    runs_with_clash_refused_in_a_later_period: usize,
    runs_of_seasons: [usize; 3],
    runs_with_few_honest_peers: usize,
    items_of_few_signers: usize,
    clashes_of_places: usize,
    receipts_of_places: usize,
    runs_with_a_share_given_before: usize,
    /// Clears refused since a period was not backed, and such that were taken.
    clears: [usize; 2],
}

impl Tally {
    fn add(&mut self, run: &Run) {
        self.steps += run.calls.len();
        for (_, answer) in &run.calls {
            *self.answers.entry(*answer).or_default() += 1;
        }
        let boards = run.state.boards();
        self.receipts += run.state.receipts.len();
        self.boards += boards.len();
        self.items_on_boards += boards.iter().map(|(_, board)| board.len()).sum::<usize>();
        self.runs_with_receipt_after_board += receipt_after_board(run) as usize;
        self.runs_with_clash_refused_in_a_later_period += late_clash(run) as usize;
        self.runs_of_seasons[run.table.season as usize] += 1;
        self.runs_with_few_honest_peers += (run.table.honest_count() < run.table.t) as usize;
        self.items_of_few_signers += items_of_few_signers(run);
        let clash = |(step, answer): &&(Vec<u8>, u8)| is_clash_of_places(&run.table, step, *answer);
        self.clashes_of_places += run.calls.iter().filter(clash).count();
        self.receipts_of_places += receipts_of_places(&run.table, &run.state);
        self.runs_with_a_share_given_before += run.was_answered(17) as usize;
        for (at, number) in [9, 0].into_iter().enumerate() {
            let is =
                |(bytes, answer): &&(Vec<u8>, u8)| bytes.first() == Some(&19) && *answer == number;
            self.clears[at] += run.calls.iter().filter(is).count();
        }
    }

    fn shows_enough(&self) {
        for answer in [0, 5, 6, 7, 8, 9, 10, 11, 12, 13, 17] {
            assert!(self.answers[&answer] > 1000, "answer {answer}");
        }
        assert!(self.receipts > 5000);
        assert!(self.boards > 3000);
        assert!(self.items_on_boards > 2000);
        assert!(self.runs_with_receipt_after_board > 100);
        assert!(self.runs_with_clash_refused_in_a_later_period > 500);
        assert!(self.runs_of_seasons.iter().all(|runs| *runs > RUNS / 4));
        assert!(self.runs_with_few_honest_peers > 1000 && self.items_of_few_signers > 500);
        assert!(self.clashes_of_places > 300);
        assert!(self.receipts_of_places > 100);
        assert!(self.runs_with_a_share_given_before > 1000);
        assert!(self.clears.iter().all(|clears| *clears > 500));
    }
}

/// Whether a receipt was first made after its period's board.
fn receipt_after_board(run: &Run) -> bool {
    let mut state = State::fresh(&run.table);
    for (bytes, _) in &run.calls {
        let before = state.receipts.clone();
        step(&run.table, &mut state, bytes);
        let boards = state.boards();
        let late = |period| boards.iter().any(|(q, _)| *q == period);
        if state.receipts.difference(&before).any(|(period, _)| late(*period)) {
            return true;
        }
    }
    false
}

/// Whether a hand was refused for a clash with an item of an earlier period.
fn late_clash(run: &Run) -> bool {
    let mut state = State::fresh(&run.table);
    for (bytes, answer) in &run.calls {
        if *answer == 11 {
            let peer = state.peer(bytes[1] as usize);
            let in_open = |held: &(usize, usize)| {
                held.0 == peer.p && run.table.clash(held.1, bytes[4] as usize)
            };
            if !peer.held.iter().any(in_open) {
                return true;
            }
        }
        step(&run.table, &mut state, bytes);
    }
    false
}

/// The check has teeth: with too little honest weight it fails now and then, also where
/// the honest peers are many.
#[test]
fn too_little_honest_weight_breaks_it() {
    let (mut broken, mut many) = (0, 0);
    for number in 0..1_500 {
        let run = Run::with_too_few(number, 4);
        assert!(run.table.honest_weight() < run.table.t);
        if !equals_ideal_board(&run) {
            broken += 1;
            many += are_many(&run.table, run.table.honest_count()) as usize;
        }
    }
    println!("broken {broken} of 1,500, {many} of them with many honest peers");
    assert!(broken > 100 && many > 10);
}
