//! States of a box: such as a rehearsal's messages lead to, such as none need lead to, and
//! damaged ones.

use crate::making::Making;
use crate::random::Random;
use crate::steps::{all_items, random_steps};
use reference::field::bytes::*;
use reference::field::message::Row;
use reference::field::part::{Hash, Part, MOST_HEARD};
use reference::field::passed::passed;
use reference::form::STEP_LENGTH;
use reference::step::step;
use reference::table::{Table, MOST_ITEMS};

/// The bytes of the box of peer j, to which so many rounds of random steps have led.
pub fn led(random: &mut Random, text: &[u8], j: usize, rounds: usize) -> Vec<u8> {
    let Making { random, table, mut state, .. } = Making::on(random, text.to_vec());
    let mut bytes = vec![0; LENGTH];
    for _ in 0..rounds {
        for call in random_steps(random, &table, &state) {
            if let Some(passed) = passed(&table, &state, j, &call) {
                passed.call(text, j as u8, &mut bytes, &mut [0; STEP_LENGTH]);
            }
            step(&table, &mut state, &call);
        }
    }
    bytes
}

/// A part with anything anywhere within the table's ranges.
pub fn scattered(random: &mut Random, table: &Table) -> Part {
    let (items, mut part) = (all_items(table.m()), Part::fresh());
    for period in 0..table.periods {
        part.held[period] = random.bits() & random.bits() & items;
        part.gave[period] = random.bits() & random.bits() & random.bits() & items;
        part.database[period] = any_row(random, table);
    }
    part.p = random.between(0, table.periods);
    part.c = random.between(0, part.p);
    part.down = random.once_in(6);
    let tries = [0, 4, 30, 1_000][random.below(4)];
    for _ in 0..tries {
        let hash = any_hash(random, table, &part);
        if part.heard.len() < MOST_HEARD && !part.heard.contains(&hash) {
            part.heard.push(hash);
        }
    }
    part
}

/// Sets of signers for the table's items: many, some or few of the peers.
pub fn any_row(random: &mut Random, table: &Table) -> Row {
    let mut row = [0; MOST_ITEMS];
    let all = u16::MAX >> (16 - table.n);
    for set in row.iter_mut().take(table.m()) {
        let [one, two] = [0, 1].map(|_| random.bits() as u16);
        *set = all & [0, one & two, one, one | two, all][random.below(5)];
    }
    row
}

/// A hash within the table's ranges, often of period c and of the peer's own board.
pub fn any_hash(random: &mut Random, table: &Table, part: &Part) -> Hash {
    let next = part.c.min(table.periods - 1);
    let period = [next, random.below(table.periods)][random.below(2)];
    let own = part.board(table, period);
    let any = random.bits() & all_items(table.m());
    Hash { signer: random.between(1, table.n), period, board: [own, any][random.below(2)] }
}

/// The parts of a box's bytes: from one of these to the next.
const PARTS: [usize; 8] = [HELD, GAVE, DATABASE, OPEN, NEXT, DOWN, COUNT, HEARD];

/// Changes the length, some bytes of one part, or makes a hash the copy of another.
pub fn damage(random: &mut Random, table: &Table, bytes: &mut Vec<u8>) {
    let count = u16::from_le_bytes([bytes[COUNT], bytes[COUNT + 1]]) as usize;
    match random.below(PARTS.len() + 3) {
        0 => bytes.truncate([0, LENGTH - 1, random.below(LENGTH)][random.below(3)]),
        1 => bytes.push(random.below(2) as u8),
        2 if count > 1 => {
            let [from, to] = [0, 1].map(|_| HEARD + HASH_LENGTH * random.below(count));
            bytes.copy_within(from..from + HASH_LENGTH, to);
        }
        choice => {
            let part = choice % PARTS.len();
            for _ in 0..random.between(1, 2) {
                let at = place(random, table, part, count);
                bytes[at] = random.changed(bytes[at]);
            }
        }
    }
}

/// A place in some part: near what the table and the hashes use, or anywhere.
fn place(random: &mut Random, table: &Table, part: usize, count: usize) -> usize {
    let (from, to) = (PARTS[part], PARTS.get(part + 1).copied().unwrap_or(LENGTH));
    let (q, i) = (random.below(table.periods + 1), random.below(table.m() + 1));
    let used = match from {
        HELD | GAVE => 8 * q + i / 8,
        DATABASE => 2 * (64 * q + i) + random.below(2),
        HEARD => {
            let of_hash = [0, 1, random.below(HASH_LENGTH)][random.below(3)];
            HASH_LENGTH * random.below(count + 1) + of_hash
        }
        _ => random.below(2),
    };
    let anywhere = random.below(to - from);
    (from + [used, used, used, anywhere][random.below(4)]).min(to - 1)
}
