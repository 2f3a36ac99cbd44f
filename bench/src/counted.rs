//! The step files that are counted: of a rehearsal, and one of false backings that
//! all differ.

use crate::parts;
use engine::Engine;
use inputs::protocol::PROTOCOLS;
use inputs::random::Random;
use reference::form::{write_step, Step, STEP_LENGTH};
use reference::report::INPUT_SIZE;
use std::hint::black_box;

/// How often each is timed; the best time counts.
pub const ROUNDS: usize = 40;

pub struct Counted {
    pub name: &'static str,
    pub steps: fn() -> Vec<u8>,
}

pub const COUNTED: [Counted; 2] = [
    Counted { name: "sixteen-steps", steps: || parts(&PROTOCOLS[1].input()).1.concat() },
    Counted { name: "false-backings", steps: false_backings },
];

/// As many as an input has room for, in no order.
fn false_backings() -> Vec<u8> {
    let mut boards: Vec<u64> = (0..(INPUT_SIZE / STEP_LENGTH) as u64).collect();
    Random::new(1, 0).shuffle(&mut boards);
    let step = |board| write_step(Step::FalseBacking { peer: 4, period: 0, board });
    boards.into_iter().flat_map(step).collect()
}

/// Counts the file, once.
pub fn round(engine: &Engine, steps: &[u8]) -> usize {
    black_box((engine.gain)(black_box(steps)));
    1
}
