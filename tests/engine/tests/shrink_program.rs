//! The proved program `shrink` on random rehearsals and on support calls: the output
//! is the reference's.

use engine::program::{output, program, refusal};
use engine::shrunk::{check, numbers, written};
use engine::PLAIN;
use inputs::kinds::{rehearsal, round};
use inputs::protocol::{support_call, PROTOCOLS};
use inputs::random::run_seed;
use inputs::refused::{rehearsals, shortened, MOST_STEPS};
use inputs::rehearsed::Rehearsed;
use reference::shrink::shrink;
use std::collections::BTreeMap;

/// So many rounds, each of all kinds.
const ROUNDS: usize = 2;

/// So many of each sort that is to be cut down, and so many of each that is slow.
const EACH: usize = 10;
const SLOW: usize = 1;

/// The most steps of a support call.
const CALL: usize = 4_000;

#[test]
fn same_outputs() {
    let (seed, program) = (run_seed(), program("shrink"));
    let kinds = (0..ROUNDS * round()).map(|number| {
        let (kind, input) = rehearsal(seed, number);
        (kind.name, shortened(input, MOST_STEPS))
    });
    let sorts = rehearsals(seed, EACH, SLOW).map(|(sort, input)| (sort.name, input));
    let mut seen = BTreeMap::<u8, usize>::new();
    for (number, (name, input)) in kinds.chain(sorts).enumerate() {
        let expected = shrink(&input);
        let given = output(&program, &input);
        assert!(given == expected, "seed {seed}, number {number}, {name}");
        *seen.entry(refusal(&expected)).or_default() += 1;
    }
    println!("{} outputs; refusals {seen:?}", seen.values().sum::<usize>());
    assert_eq!(seen.keys().copied().collect::<Vec<u8>>(), [0, 1, 2, 3, 4, 15, 18]);
    assert!(seen[&0] > 300);
}

/// A support call of 4,000 steps, and a long rehearsal of 16 peers up to a refusal. The
/// reference takes seconds for each.
#[test]
fn support_calls() {
    let program = program("shrink");
    let [_, protocol] = PROTOCOLS;
    let long = shortened(protocol.input(), CALL);
    for (name, input) in [("a support call", support_call()), (protocol.name, long)] {
        let steps = Rehearsed::new(&input).calls().count();
        let text = output(&program, &input);
        assert!(text == written(&PLAIN, &input), "{name}: the plain engine's");
        assert!(text == shrink(&input), "{name}: the reference's");
        let left = numbers(&text).expect("numbers");
        check(&input, &left).unwrap_or_else(|wrong| panic!("{name}: {wrong}"));
        println!("{name}: of {steps} steps {} are left", left.len());
        assert!(steps > CALL - 500 && left.len() > 1);
    }
}
