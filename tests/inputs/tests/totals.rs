//! The totals on random rehearsals of every kind: they stand before `end`, the
//! two last equal the lines above them, and neither refused nor repeated steps
//! add to them.

use inputs::kinds::{rehearsal, round};
use inputs::random::run_seed;
use inputs::rehearsed::Rehearsed;
use reference::report::rehearse;
use std::collections::BTreeSet;

/// So many rounds, each of all kinds.
const ROUNDS: usize = 4;

/// The three figures of the line before `end`, and the lines above it.
fn foot(report: &str) -> ([usize; 3], Vec<&str>) {
    let mut lines: Vec<&str> = report.lines().collect();
    assert_eq!(lines.pop(), Some("end"));
    let figures = lines.pop().and_then(|line| line.strip_prefix("totals ")).expect("the totals");
    let figures: Vec<usize> = figures.split(' ').map(|figure| figure.parse().unwrap()).collect();
    (figures.try_into().expect("three figures"), lines)
}

/// The number of receipts that lines show, and of items on boards.
fn shown(lines: &[&str]) -> [usize; 2] {
    let receipts = lines.iter().filter(|line| line.starts_with("receipt "));
    let boards = lines.iter().filter_map(|line| line.strip_prefix("board "));
    // The first field of a board is its period.
    [receipts.count(), boards.map(|fields| fields.split(' ').count() - 1).sum()]
}

/// The input with those of its steps that are to be kept, by step and answer.
fn with_steps(rehearsed: &Rehearsed, mut keep: impl FnMut(&[u8], u8) -> bool) -> Vec<u8> {
    let end = rehearsed.outcome.as_ref().map_or(0, |outcome| outcome.end);
    let mut input = rehearsed.input[..end].to_vec();
    let kept = rehearsed.calls().filter(|(step, answer)| keep(step, *answer));
    kept.for_each(|(step, _)| input.extend(step));
    input
}

/// Whether a step is a post, a receipt or a publish.
fn is_counted(step: &[u8]) -> bool {
    [1, 6, 12].contains(&step[0])
}

/// The input without the refused steps, and without those of the steps that are
/// counted which were accepted before. After a clear a publish is another one.
fn without_idle_steps(rehearsed: &Rehearsed) -> [Vec<u8>; 2] {
    let mut seen = BTreeSet::new();
    let is_new = |step: &[u8], answer| {
        if step[0] == 19 && answer == 0 {
            seen.retain(|seen: &Vec<u8>| seen[0] != 12);
        }
        answer != 0 || !is_counted(step) || seen.insert(step.to_vec())
    };
    [with_steps(rehearsed, |_, answer| answer == 0), with_steps(rehearsed, is_new)]
}

#[test]
fn of_every_kind() {
    let (seed, mut left_out) = (run_seed(), [0; 2]);
    for number in 0..ROUNDS * round() {
        let (kind, input) = rehearsal(seed, number);
        let place = format!("seed {seed}, number {number}, {}", kind.name);
        let rehearsed = Rehearsed::new(&input);
        assert!((kind.fits)(&rehearsed), "{place}");
        let report = String::from_utf8(rehearse(&input)).expect("a report in ASCII");
        let Ok(outcome) = &rehearsed.outcome else {
            assert!(report.starts_with("refused ") && report.lines().count() == 1, "{place}");
            continue;
        };
        let (totals, lines) = foot(&report);
        let [receipts, items] = shown(&lines);
        assert_eq!(totals, [outcome.state.posted.len(), receipts, items], "{place}");
        for (k, fewer) in without_idle_steps(&rehearsed).into_iter().enumerate() {
            let outcome = Rehearsed::new(&fewer).outcome.expect("the same table");
            assert_eq!(outcome.totals, totals, "{place}");
            left_out[k] += (input.len() - fewer.len()) / 13;
        }
    }
    println!("left out: {} refused, {} repeated", left_out[0], left_out[1]);
    assert!(left_out[0] > 10_000 && left_out[1] > 1_000);
}

/// Each of the four kinds that are about totals can be missed, and those with two
/// places, on two days, with clears and with unequal weights: a rehearsal that keeps but
/// the first step of the op is not of that kind.
#[test]
fn kinds_that_can_be_missed() {
    for (name, op) in [
        ("posts that come again", 1),
        ("receipts that come again", 6),
        ("publishes that come again", 12),
        ("two boards of one period", 12),
        ("audits from two places", 2),
        ("a slip posted on two days", 5),
        ("a bag that is cleared", 19),
        ("a full bag that is cleared", 19),
        ("peers of unequal weight", 5),
        ("peers of unequal weight", 6),
        ("peers of unequal weight", 9),
        ("peers of unequal weight", 11),
        ("peers of unequal weight", 12),
    ] {
        let mut all = (0..round()).map(|number| rehearsal(1, number));
        let (kind, input) = all.find(|(kind, _)| kind.name == name).expect("a kind");
        let rehearsed = Rehearsed::new(&input);
        let mut seen = BTreeSet::new();
        let fewer = with_steps(&rehearsed, |step, _| step[0] != op || seen.insert(op));
        let fits = [rehearsed, Rehearsed::new(&fewer)].map(|rehearsed| (kind.fits)(&rehearsed));
        assert_eq!(fits, [true, false], "{name}");
    }
}
