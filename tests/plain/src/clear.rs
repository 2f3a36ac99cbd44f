//! Op 19: the hashes of a period leave the bag.

use crate::form::Fields;
use crate::guards::{refuse_if, PERIOD};
use crate::state::{Entry, State, HASH, MOST_ENTRIES};
use crate::table::Table;
use crate::Done;

const FREE: Entry = Entry { kind: 0, signer: 0, period: 0, board: 0 };

/// A set of entries.
type Set = [u64; 4];

pub fn clear(table: &Table, state: &mut State, step: &Fields) -> Done {
    table.period(step.period)?;
    let backed = |j: usize| table.need_honest(j).is_err() || state.next[j] > step.period;
    refuse_if(!(0..table.n as usize).all(backed), PERIOD)?;
    remove(state, step.period);
    Ok(())
}

/// Removes a period's hashes: the other entries move up, and what each peer heard
/// follows them.
fn remove(state: &mut State, period: u8) {
    let (mut stay, mut numbers): (Set, _) = ([0; 4], [0; MOST_ENTRIES]);
    let (count, mut left) = (state.count as usize, 0);
    for e in 0..count {
        let entry = state.bag[e];
        let stays = entry.kind != HASH || entry.period != period;
        stay[e / 64] |= (stays as u64) << (e % 64);
        numbers[e] = left as u8;
        state.bag[left] = entry;
        left += stays as usize;
    }
    if left < count {
        state.bag[left..count].fill(FREE);
        state.count = left as u16;
        for j in 0..16 {
            state.heard[j] = renumbered(state.heard[j], &stay, &numbers);
        }
    }
}

/// The entries of a set that stay, by their new numbers.
fn renumbered(set: Set, stay: &Set, numbers: &[u8; MOST_ENTRIES]) -> Set {
    let mut new = [0; 4];
    for (at, (bits, stay)) in set.into_iter().zip(stay).enumerate() {
        let mut left = bits & stay;
        while left != 0 {
            let number = numbers[64 * at + left.trailing_zeros() as usize];
            new[number as usize / 64] |= 1 << (number % 64);
            left &= left - 1;
        }
    }
    new
}
