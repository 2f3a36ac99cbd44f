//! Steps of one op alone, on the states that an input leads to.

use crate::parts;
use engine::layout::LENGTH;
use engine::Engine;
use plain::Run;
use std::hint::black_box;

/// Calls each step of the op, or no step at all (5) if `empty`, on a copy of
/// the state before it; how many there were.
pub fn round(engine: &Engine, op: u8, empty: bool, input: &[u8]) -> usize {
    let (table, steps) = parts(input);
    let (mut state, mut copy) = (vec![0; LENGTH], vec![0; LENGTH]);
    let mut count = 0;
    let (mut run, _) = Run::over(input, &mut state).expect("a valid table");
    for given in steps {
        if given[0] == op {
            copy.copy_from_slice(run.state());
            let step = if empty { &[] } else { given };
            black_box((engine.step)(black_box(table), &mut copy, step));
            count += 1;
        }
        run.step(given);
    }
    count
}
