//! Step files without a table, to be counted as document 02's P11 says, by sort: each
//! with the answer of the program.

use crate::kinds::{rehearsal, round};
use crate::random::Random;
use crate::rehearsed::Rehearsed;
use crate::sorts::{sort, Sort};
use crate::steps::uniform;
use crate::tables::random_table;
use reference::form::STEP_LENGTH;
use reference::report::INPUT_SIZE;
use reference::table::read_table;

/// The ops that count.
pub const COUNTED: [u8; 5] = [9, 11, 12, 15, 16];

pub static SORTS: [Sort; 13] = [
    sort("no bytes", |_| Vec::new(), &[0]),
    sort("a short tail alone", |random| tail(random, 1), &[0]),
    sort("the steps of a rehearsal", rehearsed, &[0]),
    sort("steps in order", in_order, &[0]),
    sort("steps with any fields", any_fields, &[0]),
    sort("any bytes", any_bytes, &[0]),
    sort("false backings that come again", false_backings, &[0]),
    sort("false backings that differ in a byte", one_byte, &[0]),
    sort("backs of a peer byte", one_peer, &[0]),
    sort("backs of many peer bytes", many_peers, &[0]),
    sort("65,536 bytes", |random| of_length(random, INPUT_SIZE), &[0]),
    sort("more than 65,536 bytes", too_long, &[15]),
    sort("false backings that come again far away", far_apart, &[15]),
];

/// A step of the op, all other bytes anything.
fn any_of(random: &mut Random, op: u8) -> Vec<u8> {
    [vec![op], random.bytes(STEP_LENGTH - 1)].concat()
}

/// A step of an op that counts, with small numbers.
fn small(random: &mut Random) -> Vec<u8> {
    let mut step = random.bytes(STEP_LENGTH);
    step.iter_mut().for_each(|byte| *byte %= 2);
    step[0] = COUNTED[random.below(COUNTED.len())];
    step
}

/// Bytes of a step of an op that counts, fewer than 13 and at least so many.
fn tail(random: &mut Random, least: usize) -> Vec<u8> {
    let length = random.between(least, STEP_LENGTH - 1);
    small(random)[..length].to_vec()
}

/// The steps in any order, some of them again, and often a short tail.
fn mixed(random: &mut Random, mut steps: Vec<Vec<u8>>) -> Vec<u8> {
    for _ in 0..random.below(5) {
        let other = small(random);
        steps.push(other);
    }
    random.shuffle(&mut steps);
    [steps.concat(), tail(random, 0)].concat()
}

/// What stands behind the table of a rehearsal of any kind.
fn rehearsed(random: &mut Random) -> Vec<u8> {
    loop {
        let input = rehearsal(random.bits(), random.below(round())).1;
        if let Ok(outcome) = Rehearsed::new(&input).outcome {
            return input[outcome.end..].to_vec();
        }
    }
}

/// Steps of any op on a table, few or many, and a short tail.
fn in_order(random: &mut Random) -> Vec<u8> {
    let table = read_table(&random_table(random, 16)).expect("a valid table");
    let count = [random.below(20), random.below(600)][random.below(2)];
    let steps: Vec<Vec<u8>> = (0..count).map(|_| uniform(random, &table)).collect();
    [steps.concat(), tail(random, 0)].concat()
}

/// Any fields behind any of the first ops.
fn any_fields(random: &mut Random) -> Vec<u8> {
    let count = random.below(200);
    let mut steps = Vec::new();
    for _ in 0..count {
        let op = random.below(22) as u8;
        steps.push(any_of(random, op));
    }
    mixed(random, steps)
}

/// Any bytes, often small numbers.
fn any_bytes(random: &mut Random) -> Vec<u8> {
    let length = random.below(600);
    let mut bytes = random.bytes(length);
    if random.once_in(2) {
        bytes.iter_mut().for_each(|byte| *byte %= 22);
    }
    bytes
}

/// A few steps 16, each some times.
fn false_backings(random: &mut Random) -> Vec<u8> {
    let count = random.between(1, 12);
    let some: Vec<Vec<u8>> = (0..count).map(|_| any_of(random, 16)).collect();
    let mut steps = Vec::new();
    for step in some {
        steps.extend(vec![step; random.between(1, 6)]);
    }
    mixed(random, steps)
}

/// A step 16, and such that differ from it in one byte.
fn one_byte(random: &mut Random) -> Vec<u8> {
    let one = any_of(random, 16);
    let mut steps = vec![one.clone()];
    for at in random.some_of(50, 1..STEP_LENGTH) {
        let mut other = one.clone();
        other[at] ^= 1 << random.below(8);
        steps.extend(vec![other; random.between(1, 2)]);
    }
    mixed(random, steps)
}

/// Steps 11 of one peer byte: about 8, or many.
fn one_peer(random: &mut Random) -> Vec<u8> {
    let count = [random.between(6, 10), random.below(60)][random.below(2)];
    let peer = [random.between(1, 16), random.below(256)][random.below(2)] as u8;
    mixed_backs(random, vec![peer; count])
}

/// Steps 11 of many peer bytes, about 8 of each.
fn many_peers(random: &mut Random) -> Vec<u8> {
    let count = random.between(1, 40);
    let some: Vec<u8> = random.bytes(count);
    let peers = some.into_iter().flat_map(|peer| vec![peer; random.between(5, 11)]);
    let peers = peers.collect();
    mixed_backs(random, peers)
}

/// A step 11 of each peer byte: as it should be, or with anything behind it.
fn mixed_backs(random: &mut Random, peers: Vec<u8>) -> Vec<u8> {
    let mut steps = Vec::new();
    for peer in peers {
        let rest = if random.once_in(2) { random.bytes(11) } else { vec![0; 11] };
        steps.push([vec![11, peer], rest].concat());
    }
    mixed(random, steps)
}

/// Small steps, up to so many bytes.
fn of_length(random: &mut Random, length: usize) -> Vec<u8> {
    let mut file = Vec::new();
    while file.len() < length {
        file.extend(small(random));
    }
    file.truncate(length);
    file
}

/// One byte too many for the program, or twice as many as it takes.
fn too_long(random: &mut Random) -> Vec<u8> {
    let length = [INPUT_SIZE + 1, random.between(INPUT_SIZE + 1, 2 * INPUT_SIZE)][random.below(2)];
    of_length(random, length)
}

/// Thousands of steps 16, all of them twice, or sometimes four times, and others between
/// them: the proved engine takes no more than 8,192 steps at once.
fn far_apart(random: &mut Random) -> Vec<u8> {
    let count = random.between(4_200, 4_400);
    let mut some: Vec<Vec<u8>> = (0..count).map(|_| any_of(random, 16)).collect();
    let mut file = Vec::new();
    let times = if random.once_in(8) { 4 } else { 2 };
    for _ in 0..times {
        random.shuffle(&mut some);
        file.extend(some.concat());
        file.extend(small(random));
    }
    [file, tail(random, 0)].concat()
}
