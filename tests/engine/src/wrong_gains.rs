//! Engines that count step files otherwise than document 02's P11 says. Each must be
//! found.

use crate::{Engine, PLAIN};
use reference::form::{read_step, STEP_LENGTH};
use std::collections::BTreeSet;

/// The whole steps of an op.
fn of(steps: &[u8], op: u8) -> impl Iterator<Item = &[u8]> {
    steps.chunks_exact(STEP_LENGTH).filter(move |step| step[0] == op)
}

/// The steps 9, 12 and 15.
fn entering(steps: &[u8]) -> usize {
    [9, 12, 15].map(|op| of(steps, op).count()).iter().sum()
}

/// The different steps of an op.
fn different(steps: &[u8], op: u8) -> usize {
    of(steps, op).collect::<BTreeSet<_>>().len()
}

/// The steps 11 of these peer bytes, at most so many for each.
fn backs(steps: &[u8], peers: impl Iterator<Item = u8>, most: usize) -> usize {
    peers.map(|peer| of(steps, 11).filter(|step| step[1] == peer).count().min(most)).sum()
}

/// The sum, with at most so many backs of a peer byte.
fn with_most(steps: &[u8], most: usize) -> usize {
    entering(steps) + different(steps, 16) + backs(steps, 0..=255, most)
}

/// The right sum.
fn sum(steps: &[u8]) -> usize {
    with_most(steps, 8)
}

/// The steps that are so, one after the other.
fn those(steps: &[u8], is: impl Fn(&&[u8]) -> bool) -> Vec<u8> {
    steps.chunks_exact(STEP_LENGTH).filter(is).collect::<Vec<_>>().concat()
}

const fn wrong(name: &'static str, gain: fn(&[u8]) -> usize) -> Engine {
    Engine { name, gain, ..PLAIN }
}

/// By the rule itself, and else like those below: it must not be found.
pub const RIGHT_GAIN: Engine = wrong("counted by the rule", sum);

pub const WRONG_GAINS: [Engine; 17] = [
    wrong("7 for 8", |steps| with_most(steps, 7)),
    wrong("9 for 8", |steps| with_most(steps, 9)),
    wrong("every back", |steps| with_most(steps, usize::MAX)),
    wrong("8 backs in all", |steps| {
        entering(steps) + different(steps, 16) + of(steps, 11).count().min(8)
    }),
    wrong("backs of peers 1 to 16", |steps| {
        entering(steps) + different(steps, 16) + backs(steps, 1..=16, 8)
    }),
    wrong("different backs", |steps| {
        let different = of(steps, 11).collect::<BTreeSet<_>>();
        let backs = |peer| different.iter().filter(|step| step[1] == peer).count().min(8);
        entering(steps) + self::different(steps, 16) + (0..=255).map(backs).sum::<usize>()
    }),
    wrong("16s each time", |steps| sum(steps) - different(steps, 16) + of(steps, 16).count()),
    wrong("16s by peer, period and board", |steps| {
        let key = |step: &[u8]| (step[1], step[3], step[5..].to_vec());
        let by_key = of(steps, 16).map(key).collect::<BTreeSet<_>>().len();
        sum(steps) - different(steps, 16) + by_key
    }),
    wrong("16s unlike the one before", |steps| {
        let mut list: Vec<&[u8]> = of(steps, 16).collect();
        list.dedup();
        sum(steps) - different(steps, 16) + list.len()
    }),
    wrong("different 9s", |steps| sum(steps) - of(steps, 9).count() + different(steps, 9)),
    wrong("different 12s", |steps| sum(steps) - of(steps, 12).count() + different(steps, 12)),
    wrong("different 15s", |steps| sum(steps) - of(steps, 15).count() + different(steps, 15)),
    wrong("a short tail counted", |steps| {
        let mut whole = steps.to_vec();
        whole.resize(steps.len().next_multiple_of(STEP_LENGTH), 0);
        sum(&whole)
    }),
    wrong("malformed ones left out", |steps| sum(&those(steps, |step| read_step(step).is_ok()))),
    wrong("cut from the end", |steps| sum(&steps[steps.len() % STEP_LENGTH..])),
    wrong("clears taken off", |steps| sum(steps).saturating_sub(of(steps, 19).count())),
    wrong("at most 256", |steps| sum(steps).min(256)),
];
