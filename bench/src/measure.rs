//! The calls measured: times in one run side by side, and rounds of one
//! engine alone for a tool that counts instructions.

use crate::shown::Shown;
use crate::{parts, OUT};
use engine::layout::LENGTH;
use engine::{Engine, PLAIN, PROVED};
use std::hint::black_box;
use std::time::Instant;

/// The calls, in the order of the tables.
pub const CALLS: &[&str] = &["rehearse", "step", "fresh", "write_sheet", "check_sheet"];

/// How often each is timed; the best time counts.
pub const ROUNDS: usize = 40;

/// The same call so many times in a round.
const TIMES: usize = 500;

/// An input with buffers for its calls.
pub struct Bench<'a> {
    input: &'a [u8],
    table: &'a [u8],
    steps: Vec<&'a [u8]>,
    state: Vec<u8>,
    out: Vec<u8>,
    shown: Shown<'a>,
}

impl<'a> Bench<'a> {
    pub fn over(input: &'a [u8]) -> Bench<'a> {
        let (table, steps) = parts(input);
        let (state, out) = (vec![0; LENGTH], vec![0; OUT]);
        Bench { input, table, steps, state, out, shown: Shown::over(table, input) }
    }

    /// One round of a call; how many calls (or, of a rehearsal, steps) it had.
    pub fn round(&mut self, engine: &Engine, call: &str) -> usize {
        match call {
            "rehearse" => {
                black_box((engine.rehearse)(self.input, &mut self.state, &mut self.out));
                self.steps.len()
            }
            "step" => {
                self.state.fill(0);
                for given in &self.steps {
                    black_box((engine.step)(self.table, &mut self.state, given));
                }
                self.steps.len()
            }
            "fresh" => repeated(|| (engine.fresh)(self.table, &mut self.state)),
            "write_sheet" => repeated(|| self.shown.write(engine)),
            _ => repeated(|| self.shown.check(engine)),
        }
    }

    /// The best times of the plain and the proved engine, in nanoseconds for
    /// each call or step.
    pub fn times(&mut self, call: &str) -> [f64; 2] {
        best_times(ROUNDS, [PLAIN, PROVED], |engine| self.round(engine, call))
    }
}

/// The same of two engines or boxes, in so many rounds, of which each tells how many
/// calls it had.
pub fn best_times<T>(
    rounds: usize,
    engines: [T; 2],
    mut round: impl FnMut(&T) -> usize,
) -> [f64; 2] {
    let mut best = [f64::MAX; 2];
    for _ in 0..rounds {
        for (engine, best) in engines.iter().zip(&mut best) {
            let start = Instant::now();
            let calls = round(engine);
            *best = best.min(start.elapsed().as_nanos() as f64 / calls as f64);
        }
    }
    best
}

/// The same call again and again; how often.
fn repeated<T>(mut call: impl FnMut() -> T) -> usize {
    (0..TIMES).for_each(|_| drop(black_box(call())));
    TIMES
}
