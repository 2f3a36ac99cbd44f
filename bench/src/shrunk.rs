//! The inputs that are cut down: a support call of the usual kind, and a chain, whose
//! passes drop one step each.

use engine::shrunk::written;
use engine::Engine;
use inputs::chain::{Chain, MOST_LINKS};
use inputs::protocol::support_call;
use reference::shrink::steps_left;
use std::hint::black_box;

/// How often each is timed; the best time counts.
pub const ROUNDS: usize = 10;

pub struct Shrunk {
    pub name: &'static str,
    pub input: fn() -> Vec<u8>,
    /// The numbers of the steps that must be left.
    pub left: fn() -> Vec<usize>,
}

/// Of the chain they are known by its making: the reference would take long.
pub const SHRUNK: [Shrunk; 2] = [
    Shrunk { name: "support-call", input: support_call, left: left_of_call },
    Shrunk { name: "chain", input: || chain().input, left: || chain().left() },
];

fn left_of_call() -> Vec<usize> {
    steps_left(&support_call()).expect("a last step that is refused").numbers
}

fn chain() -> Chain {
    Chain::of(MOST_LINKS)
}

/// Cuts the input down, once.
pub fn round(engine: &Engine, input: &[u8]) -> usize {
    black_box(written(engine, black_box(input)));
    1
}
