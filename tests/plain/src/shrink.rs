//! A short rehearsal that still refuses: steps without which the last answer
//! stays the same are dropped.

use crate::guards::{refuse_if, CLEAN};
use crate::lines::Lines;
use crate::run::{Run, STEP};
use crate::state::SIZE;

/// No input has more steps.
const MOST_STEPS: usize = 5_041;

/// Writes the numbers of the steps that are left and answers the text's length:
/// as many bytes as there is room for are written.
pub fn shrink(input: &[u8], out: &mut [u8]) -> usize {
    let (mut state, mut dropped) = ([0; SIZE], [false; MOST_STEPS]);
    let mut lines = Lines::over(out);
    match Trials::over(input, &mut state, &mut dropped).and_then(Trials::cut) {
        Ok(trials) => trials.write(&mut lines),
        Err(refusal) => lines.refused(refusal),
    }
    lines.length
}

/// A run with the steps before the last, the last, and a flag for each that is
/// dropped.
struct Trials<'a, 'b> {
    run: Run<'a>,
    earlier: &'b [[u8; STEP]],
    last: &'b [u8],
    dropped: &'a mut [bool; MOST_STEPS],
}

impl<'a, 'b> Trials<'a, 'b> {
    /// The trials of an input that has steps; a short tail is the last.
    fn over(
        input: &'b [u8],
        state: &'a mut [u8; SIZE],
        dropped: &'a mut [bool; MOST_STEPS],
    ) -> Result<Trials<'a, 'b>, u8> {
        let (run, steps) = Run::over(input, state)?;
        refuse_if(steps.is_empty(), CLEAN)?;
        let (earlier, last) = steps.split_at((steps.len() - 1) / STEP * STEP);
        Ok(Trials { run, earlier: earlier.as_chunks().0, last, dropped })
    }

    /// Goes through the steps until none is dropped.
    fn cut(mut self) -> Result<Self, u8> {
        let wanted = self.answer();
        refuse_if(wanted == 0, CLEAN)?;
        while self.pass(wanted) {}
        Ok(self)
    }

    /// Tries to do without each step, from the last to the first; whether one was
    /// dropped.
    fn pass(&mut self, wanted: u8) -> bool {
        let mut any = false;
        for k in (0..self.earlier.len()).rev() {
            if !self.dropped[k] {
                self.dropped[k] = true;
                self.dropped[k] = self.answer() == wanted;
                any |= self.dropped[k];
            }
        }
        any
    }

    /// The last answer, from the fresh state and without the steps that are dropped.
    fn answer(&mut self) -> u8 {
        self.run.make_fresh();
        for (step, dropped) in self.earlier.iter().zip(&*self.dropped) {
            if !dropped {
                self.run.step(step);
            }
        }
        self.run.step(self.last)
    }

    fn write(&self, lines: &mut Lines) {
        for (k, dropped) in self.dropped[..=self.earlier.len()].iter().enumerate() {
            if !dropped {
                lines.last(k + 1);
            }
        }
    }
}
