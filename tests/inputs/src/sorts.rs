//! Random bytes by sort, each sort with the answers that it must reach.

use crate::random::Random;
use std::collections::{BTreeMap, BTreeSet};
use std::fmt;

pub struct Sort {
    pub name: &'static str,
    make: Make,
    /// The answers that some of them get.
    pub answers: &'static [u8],
}

pub type Make = fn(&mut Random) -> Vec<u8>;

pub const fn sort(name: &'static str, make: Make, answers: &'static [u8]) -> Sort {
    Sort { name, make, answers }
}

/// Bytes of a run, by their number: of every sort in turn.
pub fn in_turn(sorts: &'static [Sort], seed: u64, number: usize) -> (&'static Sort, Vec<u8>) {
    let sort = &sorts[number % sorts.len()];
    (sort, (sort.make)(&mut Random::new(seed, number)))
}

/// Bytes of any sort.
pub fn of_any(sorts: &[Sort], random: &mut Random) -> Vec<u8> {
    (sorts[random.below(sorts.len())].make)(random)
}

/// How often each sort got each answer.
#[derive(Default)]
pub struct Tally(BTreeMap<(&'static str, u8), usize>);

impl Tally {
    pub fn count(&mut self, sort: &Sort, answer: u8) {
        *self.0.entry((sort.name, answer)).or_default() += 1;
    }

    fn of(&self, name: &'static str, answer: u8) -> usize {
        self.0.get(&(name, answer)).copied().unwrap_or(0)
    }

    /// How often any sort got the answer.
    pub fn times(&self, answer: u8) -> usize {
        self.0.iter().filter(|(key, _)| key.1 == answer).map(|(_, times)| times).sum()
    }

    /// The answers that sorts must reach, and did not so many times.
    pub fn rare(&self, sorts: &[Sort], least: usize) -> Vec<String> {
        let all =
            sorts.iter().flat_map(|sort| sort.answers.iter().map(|answer| (sort.name, *answer)));
        let rare = all.filter(|(name, answer)| self.of(name, *answer) < least);
        rare.map(|(name, answer)| format!("{name}: too few answers {answer}")).collect()
    }

    /// The answers that sorts got and that are not theirs.
    pub fn foreign(&self, sorts: &[Sort]) -> Vec<String> {
        let own = |name, answer| {
            sorts.iter().any(|sort| sort.name == name && sort.answers.contains(&answer))
        };
        let foreign = self.0.keys().filter(|(name, answer)| !own(*name, *answer));
        foreign.map(|(name, answer)| format!("{name}: answer {answer}")).collect()
    }
}

/// A row for each sort.
impl fmt::Display for Tally {
    fn fmt(&self, f: &mut fmt::Formatter) -> fmt::Result {
        let answers: BTreeSet<u8> = self.0.keys().map(|key| key.1).collect();
        let head: String = answers.iter().map(|answer| format!("{answer:>8}")).collect();
        writeln!(f, "{:<40}{head}", "sort / answer")?;
        let names: BTreeSet<&'static str> = self.0.keys().map(|key| key.0).collect();
        for name in names {
            let cells: String =
                answers.iter().map(|answer| format!("{:>8}", self.of(name, *answer))).collect();
            writeln!(f, "{name:<40}{cells}")?;
        }
        Ok(())
    }
}
