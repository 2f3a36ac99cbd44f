//! The proved program `gain` on random step files: the output is the reference's.

use engine::program::{output, program, refusal};
use inputs::random::run_seed;
use inputs::sorts::{in_turn, Tally};
use inputs::step_files::SORTS;
use reference::gain::gain_line;

const FILES: usize = 600;

#[test]
fn same_outputs() {
    let (seed, program, mut seen) = (run_seed(), program("gain"), Tally::default());
    for number in 0..FILES {
        let (sort, file) = in_turn(&SORTS, seed, number);
        let (given, due) = (output(&program, &file), gain_line(&file));
        assert!(given == due, "seed {seed}, number {number}, {}", sort.name);
        seen.count(sort, refusal(&due));
    }
    println!("{seen}");
    assert_eq!(seen.rare(&SORTS, FILES / SORTS.len()), [""; 0]);
    assert_eq!(seen.foreign(&SORTS), [""; 0]);
}
