//! The proved program `sheet` on random rehearsals and periods: the output is
//! the reference's.

use engine::program::{output, program, refusal};
use inputs::kinds::{rehearsal, round};
use inputs::random::{run_seed, Random};
use inputs::rehearsed::Rehearsed;
use reference::sheet::rehearsed_sheet;
use std::collections::BTreeMap;

/// So many rounds, each of all kinds.
const ROUNDS: usize = 2;

/// Mostly a period that has a board; else any of the table's, or any byte.
fn period(random: &mut Random, rehearsed: &Rehearsed) -> u8 {
    let Ok(outcome) = &rehearsed.outcome else {
        return random.below(9) as u8;
    };
    let shown = random.pick(outcome.state.boards().into_iter()).map(|(period, _)| period);
    match (random.below(8), shown) {
        (0, _) => random.bits() as u8,
        (1, _) => outcome.table.periods as u8,
        (2, _) | (_, None) => random.below(outcome.table.periods) as u8,
        (_, Some(period)) => period as u8,
    }
}

#[test]
fn same_outputs() {
    let (seed, program) = (run_seed(), program("sheet"));
    let mut seen = BTreeMap::<u8, usize>::new();
    for number in 0..ROUNDS * round() {
        let (kind, bytes) = rehearsal(seed, number);
        let period = period(&mut Random::new(!seed, number), &Rehearsed::new(&bytes));
        let input = [vec![period], bytes].concat();
        let expected = rehearsed_sheet(&input);
        let given = output(&program, &input);
        let name = kind.name;
        assert!(given == expected, "seed {seed}, number {number}, {name}, period {period}");
        // No sheet looks like a refusal: its first byte is below 8.
        *seen.entry(refusal(&expected)).or_default() += 1;
    }
    println!("{} outputs; answers {seen:?}", ROUNDS * round());
    assert_eq!(seen.keys().copied().collect::<Vec<u8>>(), [0, 1, 2, 3, 4, 6, 10, 15]);
    assert!(seen[&0] > 40);
}
