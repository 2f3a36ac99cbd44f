//! Reasons are facts: for each input, and for each step of random rehearsals, a
//! reason is found for the refusal that the reference gives, and none for any
//! that is judged before it, nor for what is done.

use inputs::answers::Answers;
use inputs::kinds::{rehearsal, round};
use inputs::random::run_seed;
use inputs::rehearsed::Rehearsed;
use reference::form::{read_step, Step};
use reference::report::run;
use reference::state::{Entry, State};
use reference::step::call;
use reference::table::Table;
use reference::Refusal::{self, *};
use scribe::reasons::{input, refusals, Telling};
use std::collections::BTreeMap;

/// So many rounds, each of all kinds.
const ROUNDS: usize = 4;

/// The refusals of a step in the order in which they are judged: the table's,
/// with 17 before 12, but that op 10 has 10 before 9.
fn judged(bytes: &[u8]) -> &'static [Refusal] {
    match bytes.first() {
        Some(10) => &[Form, Name, Role, Down, Unknown, Period, Clash, Given, Short, Full],
        _ => &[Form, Name, Role, Down, Period, Unknown, Clash, Given, Short, Full],
    }
}

/// The first refusal for which there is a reason.
fn first(table: &Table, state: &State, bytes: &[u8]) -> Option<Refusal> {
    let has_reason = |refusal: &Refusal| refusals::why(table, state, bytes, *refusal).is_some();
    judged(bytes).iter().copied().find(has_reason)
}

/// The first refusal of an input for which there is a reason.
fn first_of_input(bytes: &[u8]) -> Option<Refusal> {
    let judged = [Input, Header, Pairs, Item, Twin];
    judged.into_iter().find(|refusal| input::why(bytes, *refusal).is_some())
}

#[test]
fn the_first_reason_is_that_of_the_input() {
    let (seed, mut refused) = (run_seed(), BTreeMap::<u8, usize>::new());
    for number in 0..ROUNDS * round() {
        let input = rehearsal(seed, number).1;
        let given = run(&input).err();
        assert_eq!(first_of_input(&input), given, "seed {seed}, number {number}");
        *refused.entry(given.map_or(0, Refusal::number)).or_default() += 1;
    }
    assert_eq!(refused.into_keys().collect::<Vec<u8>>(), [0, 1, 2, 3, 4, 15]);
}

#[test]
fn the_first_reason_is_that_of_the_answer() {
    let (seed, mut answers) = (run_seed(), Answers::default());
    for number in 0..ROUNDS * round() {
        let input = rehearsal(seed, number).1;
        let rehearsed = Rehearsed::new(&input);
        let Ok(outcome) = &rehearsed.outcome else { continue };
        let mut state = State::fresh(&outcome.table);
        for (k, (bytes, answer)) in rehearsed.calls().enumerate() {
            let expected = first(&outcome.table, &state, bytes);
            let given = call(&outcome.table, &mut state, bytes).err();
            assert_eq!(expected, given, "seed {seed}, number {number}, step {}: {bytes:?}", k + 1);
            answers.count(bytes, answer);
        }
    }
    assert_eq!(answers.wrong(), [""; 0], "seed {seed}");
}

/// A step that is done changes the state or has "nothing new", but not both: so
/// whatever a state may hold, news are told of it.
#[test]
fn news_are_told_of_every_change() {
    let (seed, mut repeats) = (run_seed(), 0);
    for number in 0..round() {
        let input = rehearsal(seed, number).1;
        let rehearsed = Rehearsed::new(&input);
        let Ok(outcome) = &rehearsed.outcome else { continue };
        let mut telling = Telling::on(&outcome.table);
        let mut state = State::fresh(&outcome.table);
        for (k, (bytes, answer)) in rehearsed.calls().take(600).enumerate() {
            let before = state.clone();
            let _answer = call(&outcome.table, &mut state, bytes);
            let told = telling.tell(bytes);
            let is_repeat = answer == 0 && state == before;
            let place = format!("seed {seed}, number {number}, step {}: {bytes:?}", k + 1);
            let is_nothing = told.reason.is_some_and(|reason| reason.starts_with("nothing new"));
            assert_eq!(answer == 0 && is_nothing, is_repeat, "{place}");
            repeats += is_repeat as usize;
        }
    }
    assert!(repeats > 500, "{repeats} repeats");
}

/// The entries that a clear is told to have removed, each with its signer, and how many
/// are told to be left.
fn told_removed(reason: &str) -> (Vec<(usize, usize)>, usize) {
    let number = |word: &str| word.parse::<usize>().unwrap();
    let (_, told) = reason.split_once(" are removed: ").unwrap();
    let (removed, left) = told.split_once("; ").unwrap();
    let run = |told: &str| match told.split(' ').collect::<Vec<&str>>()[..] {
        ["entry", entry, "of", "peer", j] => (number(entry)..=number(entry), number(j)),
        ["entries", first, "to", last, "of", "peer", j] => {
            (number(first)..=number(last), number(j))
        }
        _ => panic!("{told}"),
    };
    let removed = removed.split(", ").map(run);
    let entries = removed.flat_map(|(run, j)| run.map(move |entry| (entry, j))).collect();
    let left = match left.split_once(' ').unwrap() {
        ("the", "bag is empty now") => 0,
        (count, _) => number(count),
    };
    (entries, left)
}

/// What a clear is told to have removed are the period's hashes, all of them, by the
/// numbers that they had.
#[test]
fn a_clear_tells_what_it_removed() {
    let (seed, mut clears) = (run_seed(), 0);
    for number in 0..ROUNDS * round() {
        let input = rehearsal(seed, number).1;
        let rehearsed = Rehearsed::new(&input);
        let Ok(outcome) = &rehearsed.outcome else { continue };
        let mut telling = Telling::on(&outcome.table);
        let mut state = State::fresh(&outcome.table);
        for (bytes, answer) in rehearsed.calls() {
            let before = state.bag.clone();
            let _answer = call(&outcome.table, &mut state, bytes);
            let told = telling.tell(bytes);
            let Ok(Step::Clear { period }) = read_step(bytes) else { continue };
            if answer != 0 || state.bag == before {
                continue;
            }
            let hash = |(entry, kind): (usize, &Entry)| match kind {
                Entry::Hash { signer, period: q, .. } if *q == period => Some((entry, *signer)),
                _ => None,
            };
            let hashes: Vec<(usize, usize)> = before.iter().enumerate().filter_map(hash).collect();
            let left = before.len() - hashes.len();
            let place = format!("seed {seed}, number {number}");
            assert_eq!(told_removed(&told.reason.unwrap()), (hashes, left), "{place}");
            clears += 1;
        }
    }
    assert!(clears > 80, "{clears} clears that removed something");
}
