//! How many entries the steps of a file can add to the bag, from the file alone.

use crate::run::STEP;

/// No peer backs more periods.
const MOST_BACKS: usize = 8;

/// Its steps 9, 12 and 15, its different steps 16, and its steps 11, at most 8 for
/// each peer byte. A short tail is no step.
pub fn gain(steps: &[u8]) -> usize {
    let (mut entered, mut backs) = (0, [0; 256]);
    let mut false_backings = Vec::new();
    for step in steps.as_chunks::<STEP>().0 {
        match step[0] {
            9 | 12 | 15 => entered += 1,
            11 => backs[step[1] as usize] += 1,
            16 => false_backings.push(number(step)),
            _ => {}
        }
    }
    false_backings.sort_unstable();
    false_backings.dedup();
    entered += backs.iter().map(|&backs: &usize| backs.min(MOST_BACKS)).sum::<usize>();
    entered + false_backings.len()
}

/// A step as one number.
fn number(step: &[u8; STEP]) -> u128 {
    let mut bytes = [0; 16];
    bytes[..STEP].copy_from_slice(step);
    u128::from_le_bytes(bytes)
}
