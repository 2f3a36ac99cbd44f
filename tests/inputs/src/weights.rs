//! Weighted tables, of document 02's P8, and such as are nearly so: each is right but
//! for what its sort names. The weights stand from byte 8 on.

use crate::peers::{weights, Peers};
use crate::random::Random;
use crate::seasons::move_offsets;
use crate::sorts::{sort, Sort};
use crate::tables::{any_honest, random_items, Shape};
use reference::season::Season::{New, Weighted};
use reference::table::LEAST_THRESHOLD;
use std::ops::Range;

pub static SORTS: [Sort; 37] = [
    sort("weights", |random| table(random, 0), &[0]),
    sort("weights of 1", |random| alike(random, 1..17, 1), &[0]),
    sort("weights of 4", |random| alike(random, 1..17, 4), &[0]),
    sort("sixteen weights of 4", |random| alike(random, 16..17, 4), &[0]),
    sort("the least threshold", |random| with_threshold(random, |peers| peers.least()), &[0]),
    sort("a threshold of W", |random| with_threshold(random, |peers| peers.sum()), &[0]),
    sort("a threshold above 16", threshold_above_16, &[0]),
    sort("a threshold too low", |random| with_threshold(random, |peers| peers.least() - 1), &[1]),
    sort("a threshold too high", |random| with_threshold(random, |peers| peers.sum() + 1), &[1]),
    sort("a threshold for heads", threshold_for_heads, &[1]),
    sort("a threshold of 0 or 255", |random| with_byte(random, 3, &[0, 255]), &[1]),
    sort("a weight of 0", |random| with_weight(random, &[0]), &[1]),
    sort("a weight of 5", |random| with_weight(random, &[5]), &[1]),
    sort("a weight of 255", |random| with_weight(random, &[255]), &[1]),
    sort("any other weight", |random| with_weight(random, &[]), &[1]),
    sort("a wrong weight and offsets", wrong_weight_and_offsets, &[1]),
    sort("no peers", |random| with_byte(random, 2, &[0]), &[1]),
    sort("17 peers or more", |random| with_byte(random, 2, &[17, 255]), &[1]),
    sort("17 weights", seventeen, &[1]),
    sort("honest bits above n", above_n, &[1]),
    sort("no period, or too many", |random| with_byte(random, 6, &[0, 9, 255]), &[1]),
    sort("too many items", |random| with_byte(random, 7, &[65, 255]), &[1]),
    sort("cut before the weights", |random| cut(random, |_| 2..9), &[1]),
    sort("cut in the weights", |random| cut(random, |n| 8..8 + n), &[1]),
    sort("cut behind the weights", |random| cut(random, |n| 8 + n..11 + n), &[2]),
    sort("cut around the last weight", |random| cut(random, |n| 6 + n..10 + n), &[1, 2]),
    sort("weights left out", |random| respliced(random, |n| 8..8 + n, &[]), &[1]),
    sort("a weight too few", |random| respliced(random, |_| 8..9, &[]), &[1]),
    sort("a weight too many", |random| respliced(random, |n| 8 + n..8 + n, &[1]), &[2]),
    sort("offsets without weights", |random| moved(random, |n| -(n as isize)), &[2]),
    sort("offsets one byte later", |random| moved(random, |_| 1), &[2]),
    sort("offsets one byte earlier", |random| moved(random, |_| -1), &[2]),
    sort("2 for 3", |random| with_byte(random, 1, &[2]), &[1, 2]),
    sort("3 for 2", three_for_two, &[1]),
    sort("0 and 3 left out", |random| respliced(random, |_| 0..2, &[]), &[1, 2]),
    sort("0 and 3 twice", |random| respliced(random, |_| 0..0, &[0, 3]), &[1]),
    sort("the 0 before 3 left out", |random| respliced(random, |_| 0..1, &[]), &[1]),
];

/// So few items that the first offset is below 256: its high byte is 0.
const FEW: usize = 12;

/// A valid table with at least so many items; now and then the weights are 1.
fn table(random: &mut Random, least: usize) -> Vec<u8> {
    let n = random.between(1, 16);
    let mut peers = Peers::of(random, Weighted, n);
    if random.once_in(3) {
        peers.weights.fill(1);
    }
    let t = peers.threshold(random);
    of_peers(random, &peers, t, least)
}

/// The number of peers.
fn peers(table: &[u8]) -> usize {
    table[2] as usize
}

/// A table of these peers with this threshold and at least so many items.
fn of_peers(random: &mut Random, peers: &Peers, t: usize, least: usize) -> Vec<u8> {
    let m = random.between(least, FEW);
    let items = random_items(random, &[Weighted], m);
    let honest = any_honest(random, peers.weights.len().min(16));
    peers.table_of(t, honest, random.between(1, 8), &items)
}

/// As many peers as the range allows, all of this weight.
fn alike(random: &mut Random, n: Range<usize>, weight: u8) -> Vec<u8> {
    let n = random.between(n.start, n.end - 1);
    let peers = Peers { season: Weighted, weights: vec![weight; n] };
    let t = random.between(peers.least(), peers.sum());
    of_peers(random, &peers, t, 0)
}

/// A threshold that depends on what the peers weigh.
fn with_threshold(random: &mut Random, t: fn(&Peers) -> usize) -> Vec<u8> {
    let n = random.between(1, 16);
    let peers = Peers::of(random, Weighted, n);
    of_peers(random, &peers, t(&peers), 0)
}

/// More than there can be without weights.
fn threshold_above_16(random: &mut Random) -> Vec<u8> {
    loop {
        let n = random.between(5, 16);
        let peers = Peers::of(random, Weighted, n);
        if peers.sum() > 16 {
            let t = random.between(peers.least().max(17), peers.sum());
            return of_peers(random, &peers, t, 0);
        }
    }
}

/// In range for so many peers without weights, and too low for W.
fn threshold_for_heads(random: &mut Random) -> Vec<u8> {
    loop {
        let n = random.between(1, 16);
        let (peers, low) = (Peers::of(random, Weighted, n), LEAST_THRESHOLD[n - 1]);
        if peers.least() > low {
            let t = random.between(low, n.min(peers.least() - 1));
            return of_peers(random, &peers, t, 0);
        }
    }
}

/// One of the weights is one of these, or any above 4; the threshold would do for W.
fn with_weight(random: &mut Random, wrong: &[u8]) -> Vec<u8> {
    let n = random.between(1, 16);
    let mut peers = Peers::of(random, Weighted, n);
    let any = random.between(5, 255) as u8;
    peers.weights[random.below(n)] = random.pick(wrong.iter().copied()).unwrap_or(any);
    let t = random.between(peers.least(), peers.sum().max(1)).min(255);
    of_peers(random, &peers, t, 0)
}

/// Both: 1 is judged before 2.
fn wrong_weight_and_offsets(random: &mut Random) -> Vec<u8> {
    let mut table = with_weight(random, &[0, 5]);
    move_offsets(&mut table, 1);
    table
}

/// A table of 17 peers.
fn seventeen(random: &mut Random) -> Vec<u8> {
    let peers = Peers { season: Weighted, weights: weights(random, 17) };
    let t = peers.threshold(random);
    of_peers(random, &peers, t, 0)
}

/// A byte is one of these.
fn with_byte(random: &mut Random, at: usize, bytes: &[u8]) -> Vec<u8> {
    let mut table = table(random, 0);
    table[at] = bytes[random.below(bytes.len())];
    table
}

/// The least honest bit that no peer has, or any above.
fn above_n(random: &mut Random) -> Vec<u8> {
    let shape = Shape { n: random.between(1, 15), ..Shape::random(random, 1) };
    let mut table = shape.table_of(random, Weighted);
    let bit = [peers(&table), random.between(peers(&table), 15)][random.below(2)];
    table[5 - bit / 8] |= 1 << (bit % 8);
    table
}

/// A table with an item or more, cut to a length that depends on the number of peers.
fn cut(random: &mut Random, lengths: fn(usize) -> Range<usize>) -> Vec<u8> {
    let mut table = table(random, 1);
    let lengths = lengths(peers(&table));
    table.truncate(random.between(lengths.start, lengths.end - 1));
    table
}

/// A table with other bytes in a part that depends on the number of peers; offsets are
/// what they were.
fn respliced(random: &mut Random, part: fn(usize) -> Range<usize>, new: &[u8]) -> Vec<u8> {
    let mut table = table(random, 0);
    let part = part(peers(&table));
    table.splice(part, new.iter().copied());
    table
}

/// A table with an item or more, its offsets moved.
fn moved(random: &mut Random, by: fn(usize) -> isize) -> Vec<u8> {
    let mut table = table(random, 1);
    let by = by(peers(&table));
    move_offsets(&mut table, by);
    table
}

/// A table of the new season that says it is weighted: what stands for the first weight
/// is 0, or not there.
fn three_for_two(random: &mut Random) -> Vec<u8> {
    let shape = Shape { m: random.between(0, FEW), ..Shape::random(random, 16) };
    let mut table = shape.table_of(random, New);
    table[1] = 3;
    table
}

/// The weighted table that says what a table of the new season says, with weights of 1;
/// both may be cut short or damaged.
pub fn with_ones(table: &[u8]) -> Vec<u8> {
    let mut weighted = table.to_vec();
    weighted[1] = 3;
    if table.len() >= 8 {
        let n = peers(table);
        weighted.splice(8..8, vec![1; n]);
        move_offsets(&mut weighted, n as isize);
    }
    weighted
}
