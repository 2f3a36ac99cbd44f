//! Engines that go wrong on purpose on the totals of document 02's P1: they count what
//! was refused or came again, or something else. Each must be found.

use crate::wrong_reports::with_lines;
use crate::{Engine, PLAIN};
use reference::form::STEP_LENGTH;
use reference::report::{run, Run};
use reference::state::{Board, Entry, State};
use reference::step::step;
use reference::table::read_front;
use reference::totals::{made, totals, Made};
use std::collections::BTreeSet;

/// The three figures of a rehearsal, by what each of its steps makes if it is accepted, and
/// its run.
type Figures = fn(&[Made], &Run) -> [usize; 3];

/// The true report but for its totals: its length.
fn rehearse(input: &[u8], state: &mut [u8], out: &mut [u8], figures: Figures) -> usize {
    with_lines(input, state, out, |_, _, line| match line.starts_with("totals ") {
        true => {
            let run = run(input).expect("an input that was taken");
            let [posts, receipts, items] = figures(&asked(input), &run);
            format!("totals {posts} {receipts} {items}")
        }
        false => line.to_string(),
    })
}

/// What each step of an input would make, accepted or not.
fn asked(input: &[u8]) -> Vec<Made> {
    let (table, end) = read_front(input).expect("a table that was taken");
    let (mut state, mut asked) = (State::fresh(&table), Vec::new());
    for bytes in input[end..].chunks(STEP_LENGTH) {
        asked.extend(made(&state, bytes));
        step(&table, &mut state, bytes);
    }
    asked
}

/// The items of a board; none if something else was made.
fn items(made: &Made) -> usize {
    match made {
        Made::Board(_, board) => board.len(),
        _ => 0,
    }
}

fn is_post(made: &&Made) -> bool {
    matches!(made, Made::Post(_))
}

fn is_receipt(made: &&Made) -> bool {
    matches!(made, Made::Receipt(..))
}

/// The true figures, but for one.
fn but(run: &Run, which: usize, figure: usize) -> [usize; 3] {
    let mut figures = totals(&run.made);
    figures[which] = figure;
    figures
}

/// The items of the entries that are so.
fn items_of(state: &State, board: fn(&Entry) -> Option<&Board>) -> usize {
    state.bag.iter().filter_map(board).map(|board| board.len()).sum()
}

/// How many different things there are.
fn different<T: Ord>(things: impl Iterator<Item = T>) -> usize {
    things.collect::<BTreeSet<T>>().len()
}

const fn wrong(name: &'static str, rehearse: fn(&[u8], &mut [u8], &mut [u8]) -> usize) -> Engine {
    Engine { name, rehearse, ..PLAIN }
}

/// With the true figures, and else like those below: it must not be found.
pub const RIGHT_TOTALS: Engine = wrong("the totals", |input, state, out| {
    rehearse(input, state, out, |_, run| totals(&run.made))
});

pub const WRONG_POSTS: [Engine; 2] = [
    wrong("refused posts counted", |input, state, out| {
        rehearse(input, state, out, |asked, run| {
            but(run, 0, different(asked.iter().filter(is_post)))
        })
    }),
    wrong("posts that come again counted", |input, state, out| {
        rehearse(input, state, out, |_, run| but(run, 0, run.made.iter().filter(is_post).count()))
    }),
];

pub const WRONG_RECEIPTS: [Engine; 3] = [
    wrong("refused receipts counted", |input, state, out| {
        rehearse(input, state, out, |asked, run| {
            but(run, 1, different(asked.iter().filter(is_receipt)))
        })
    }),
    wrong("receipts that come again counted", |input, state, out| {
        rehearse(input, state, out, |_, run| {
            but(run, 1, run.made.iter().filter(is_receipt).count())
        })
    }),
    wrong("one receipt for an item in all periods", |input, state, out| {
        rehearse(input, state, out, |_, run| {
            but(run, 1, different(run.state.receipts.iter().map(|(_, item)| *item)))
        })
    }),
];

pub const WRONG_ITEMS: [Engine; 8] = [
    wrong("boards that are refused counted", |input, state, out| {
        rehearse(input, state, out, |asked, run| but(run, 2, totals(asked)[2]))
    }),
    wrong("boards that are published again counted", |input, state, out| {
        rehearse(input, state, out, |_, run| but(run, 2, run.made.iter().map(items).sum()))
    }),
    wrong("a period's first board alone", |input, state, out| {
        rehearse(input, state, out, |_, run| {
            let (mut seen, boards) = (BTreeSet::new(), run.state.boards());
            let first = boards.iter().filter(|(period, _)| seen.insert(*period));
            but(run, 2, first.map(|(_, board)| board.len()).sum())
        })
    }),
    wrong("items of all boards as one set", |input, state, out| {
        rehearse(input, state, out, |_, run| {
            but(run, 2, different(run.state.boards().into_iter().flat_map(|(_, board)| board)))
        })
    }),
    wrong("items of a period's boards as one set", |input, state, out| {
        rehearse(input, state, out, |_, run| {
            let pair =
                |(period, board): (usize, Board)| board.into_iter().map(move |item| (period, item));
            but(run, 2, different(run.state.boards().into_iter().flat_map(pair)))
        })
    }),
    wrong("boards counted for their items", |input, state, out| {
        rehearse(input, state, out, |_, run| but(run, 2, run.state.boards().len()))
    }),
    wrong("items of hashes counted", |input, state, out| {
        rehearse(input, state, out, |_, run| {
            let hashes = items_of(&run.state, |entry| match entry {
                Entry::Hash { board, .. } | Entry::Board { board, .. } => Some(board),
                _ => None,
            });
            but(run, 2, hashes)
        })
    }),
    wrong("items of backings counted", |input, state, out| {
        rehearse(input, state, out, |_, run| {
            let backings = items_of(&run.state, |entry| match entry {
                Entry::Backing { board, .. } | Entry::Board { board, .. } => Some(board),
                _ => None,
            });
            but(run, 2, backings)
        })
    }),
];
