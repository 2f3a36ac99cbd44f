//! Rehearsals cut down, of document 02's P7, new ones in each run: the same steps are
//! left, and they keep what is promised. Every wrong shrinker is found.

use engine::altered::must_be_found;
use engine::shrunk::{check, compare, numbers, written};
use engine::wrong_shrinkers::{BROKEN_PROMISES, RIGHT_SHRINKER, WRONG_ELSEWHERE};
use engine::{board_shrink_most, Engine, ENGINES, PLAIN};
use inputs::random::{run_seed, Random};
use inputs::refused::rehearsals;
use inputs::rehearsed::{Outcome, Rehearsed};
use reference::form::STEP_LENGTH;
use reference::shrink::{shrink, steps_left, text, Left};
use reference::Refusal;
use std::collections::BTreeMap;

/// So many of each sort, and so many of each that is slow.
const EACH: usize = 60;
const SLOW: usize = 2;

/// What the rehearsals came to.
#[derive(Debug, Default)]
struct Seen {
    /// Those refused as a whole, by the number.
    refused: BTreeMap<u8, usize>,
    /// Those that are clean: without steps, and with a last answer of 0.
    clean: [usize; 2],
    /// The others by their last answer, by their passes, and by their season.
    answers: BTreeMap<u8, usize>,
    passes: BTreeMap<usize, usize>,
    seasons: [usize; 3],
    /// Those that end with a short tail.
    tails: usize,
    /// Those in which a step was dropped that had been answered 0.
    done: usize,
    /// Their steps, those left, and the most of both.
    steps: [usize; 2],
    most: [usize; 2],
}

impl Seen {
    /// What the reference makes of a rehearsal. The answer that its sort is to get.
    fn add(&mut self, rehearsed: &Rehearsed, left: &Result<Left, Refusal>) -> u8 {
        match (&rehearsed.outcome, left) {
            (Ok(outcome), Ok(left)) => self.add_left(rehearsed.input, outcome, left),
            (Ok(outcome), Err(refusal)) => {
                self.clean[!outcome.answers.is_empty() as usize] += 1;
                refusal.number()
            }
            (Err(number), _) => {
                *self.refused.entry(*number).or_default() += 1;
                *number
            }
        }
    }

    fn add_left(&mut self, input: &[u8], outcome: &Outcome, left: &Left) -> u8 {
        let answers = &outcome.answers;
        let answer = answers.last().copied().unwrap_or(0);
        *self.answers.entry(answer).or_default() += 1;
        *self.passes.entry(left.dropped.len()).or_default() += 1;
        self.seasons[outcome.table.season as usize] += 1;
        self.tails += !(input.len() - outcome.end).is_multiple_of(STEP_LENGTH) as usize;
        let is_dropped = |at: &usize| !left.numbers.contains(&(at + 1));
        self.done += (0..answers.len()).filter(is_dropped).any(|at| answers[at] == 0) as usize;
        for (at, count) in [answers.len(), left.numbers.len()].into_iter().enumerate() {
            self.steps[at] += count;
            self.most[at] = self.most[at].max(count);
        }
        answer
    }

    /// Whether all was reached that a rehearsal can come to.
    fn shows_enough(&self) {
        assert_eq!(self.refused.keys().copied().collect::<Vec<u8>>(), [1, 2, 3, 4, 15]);
        let answers: Vec<u8> = self.answers.keys().copied().collect();
        assert_eq!(answers, [5, 6, 7, 8, 9, 10, 11, 12, 13, 17]);
        assert!(self.clean.iter().all(|times| *times > 0));
        let several: usize = self.passes.range(3..).map(|(_, times)| times).sum();
        assert!(several > 100 && self.passes.keys().any(|passes| *passes > 8));
        assert!(self.seasons.iter().all(|times| *times > 200));
        // What fills the bag is left.
        assert!(self.tails > 0 && self.done > 300 && self.most[1] > 256);
    }
}

/// What goes wrong with an engine, or with the numbers themselves, if something does.
fn first_wrong(seed: u64, number: usize, input: &[u8], text: &[u8]) -> Result<(), String> {
    if text.len() > board_shrink_most() {
        return Err(format!("{} bytes, more than board_shrink_most", text.len()));
    }
    for engine in ENGINES {
        let same = compare(&engine, &mut Random::new(!seed, number), input, text);
        same.map_err(|wrong| format!("{}, {wrong}", engine.name))?;
    }
    numbers(text).map_or(Ok(()), |numbers| check(input, &numbers))
}

#[test]
fn same_steps_left() {
    let (seed, mut seen) = (run_seed(), Seen::default());
    for (number, (sort, input)) in rehearsals(seed, EACH, SLOW).enumerate() {
        let place = format!("seed {seed}, number {number}, {}", sort.name);
        let (rehearsed, left) = (Rehearsed::new(&input), steps_left(&input));
        let answer = seen.add(&rehearsed, &left);
        assert!(sort.answers.contains(&answer), "{place}: {answer}");
        if let Err(wrong) = first_wrong(seed, number, &input, &text(&left)) {
            panic!("{place}: {wrong}\ninput {:?}", &input[..input.len().min(2_000)]);
        }
    }
    println!("{seen:?}");
    seen.shows_enough();
}

/// Some of every sort.
fn some(seed: u64) -> Vec<Vec<u8>> {
    rehearsals(seed, 16, 0).map(|(_, input)| input).collect()
}

/// By the comparison.
#[test]
fn every_wrong_shrinker_is_found() {
    let seed = run_seed();
    let all = some(seed);
    let texts: Vec<Vec<u8>> = all.iter().map(|input| shrink(input)).collect();
    let found = |engine: &Engine| {
        let differs = |number: &usize| {
            let random = &mut Random::new(!seed, *number);
            compare(engine, random, &all[*number], &texts[*number]).is_err()
        };
        (0..all.len()).filter(differs).count()
    };
    for engine in BROKEN_PROMISES.iter().chain(&WRONG_ELSEWHERE) {
        must_be_found(engine.name, found(engine));
    }
    assert_eq!((found(&PLAIN), found(&RIGHT_SHRINKER)), (0, 0));
}

/// By the promise alone.
#[test]
fn every_broken_promise_is_found() {
    let all = some(run_seed());
    let is_broken = |engine: &Engine, input: &[u8]| {
        let numbers = numbers(&written(engine, input));
        numbers.is_some_and(|numbers| check(input, &numbers).is_err())
    };
    let found = |engine: &Engine| all.iter().filter(|input| is_broken(engine, input)).count();
    for engine in BROKEN_PROMISES {
        must_be_found(engine.name, found(&engine));
    }
    assert_eq!((found(&PLAIN), found(&RIGHT_SHRINKER)), (0, 0));
}
