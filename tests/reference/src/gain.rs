//! The count of document 02's P11: the most entries that the bag can gain by a step
//! file, told from the file alone.

use crate::form::STEP_LENGTH;
use crate::refusals::refuse_if;
use crate::report::{refused, INPUT_SIZE};
use crate::Refusal;
use std::collections::BTreeSet;

/// The most backs that are counted for one peer byte: there are no more periods.
const MOST_BACKS: usize = 8;

/// Of the file's 13-byte steps: the steps 9, 12 and 15, the different steps 16, and
/// the steps 11, at most 8 for each peer byte. The op byte alone says which a step
/// is; a short tail is none.
pub fn gain(steps: &[u8]) -> usize {
    let of_op = |op: u8| steps.chunks_exact(STEP_LENGTH).filter(move |step| step[0] == op);
    let entering: usize = [9, 12, 15].iter().map(|op| of_op(*op).count()).sum();
    let false_backings: BTreeSet<&[u8]> = of_op(16).collect();
    let of_peer = |peer: u8| of_op(11).filter(|step| step[1] == peer).count();
    let backs: usize = (0..=255).map(|peer| of_peer(peer).min(MOST_BACKS)).sum();
    entering + false_backings.len() + backs
}

/// The whole output of the program `gain`, whose input is a step file without a
/// table. 15: over 65,536 bytes.
pub fn gain_line(input: &[u8]) -> Vec<u8> {
    match refuse_if(input.len() > INPUT_SIZE, Refusal::Input) {
        Ok(()) => format!("gain {}\n", gain(input)).into_bytes(),
        Err(refusal) => refused(refusal),
    }
}
