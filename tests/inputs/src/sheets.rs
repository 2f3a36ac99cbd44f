//! Random sheets: valid ones, damaged ones, and other bytes.

use crate::damaged::{copy_item, move_end, odd_item};
use crate::places::{two_audits, FREE};
use crate::random::Random;
use crate::sorts::{sort, Sort};
use crate::tables::{add, audit, number, pair_behind, random_items, random_table};
use reference::season::Season::{New, Old};
use reference::sheet::write_sheet;
use std::ops::Range;

pub static SORTS: [Sort; 33] = [
    sort("a sheet", |random| sheet(random, 0), &[0]),
    sort("no items", |random| of_items(random, 0), &[0]),
    sort("64 items", |random| of_items(random, 64), &[0]),
    sort("items in another order", shuffled, &[0]),
    sort("nearly twins", |random| with_copy(random, true), &[0]),
    sort("audits of either length", audits_of_either_length, &[0]),
    sort("audits from two places", |random| with_two_audits(random, false), &[0]),
    sort("two audits from one place", |random| with_two_audits(random, true), &[16]),
    sort("an audit of seven bytes", |random| with_audit(random, 2), &[16]),
    sort("an audit of four bytes", |random| with_audit(random, -1), &[16]),
    sort("texts exchanged under their pairs", texts_exchanged, &[0, 16]),
    sort("a byte changed", |random| changed(random, |bytes| 0..bytes.len()), &[0, 16]),
    sort("another period", |random| with_head(random, 0), &[0, 16]),
    sort("a pair changed", |random| changed(random, |bytes| HEAD..texts(bytes)), &[16]),
    sort("a text changed", |random| changed(random, |bytes| texts(bytes)..bytes.len()), &[0, 16]),
    sort("an item over another", |random| damaged(random, copy_item), &[0, 16]),
    sort("an odd item", with_odd_item, &[0, 16]),
    sort("few bytes", few_bytes, &[0, 16]),
    sort("any bytes", any_bytes, &[16]),
    sort("a table", |random| random_table(random, 16), &[16]),
    sort("another count", |random| with_head(random, 1), &[16]),
    sort("a byte more", byte_more, &[16]),
    sort("a byte fewer", byte_fewer, &[16]),
    sort("a tail", with_tail, &[16]),
    sort("cut", cut, &[16]),
    sort("twins", |random| with_copy(random, false), &[16]),
    sort("65 items or more", too_many, &[16]),
    sort("the first offset of a table", |random| moved(random, 0..1, 4), &[16]),
    sort("a gap", |random| moved(random, 0..64, 1), &[16]),
    sort("an overlap", |random| moved(random, 1..64, -1), &[16]),
    sort("an end moved", |random| damaged(random, move_end), &[16]),
    sort("pairs exchanged", pairs_exchanged, &[16]),
    sort("a sum that would wrap", wrapped, &[16]),
];

/// The bytes before the pairs: the period and the count.
const HEAD: usize = 2;

/// So many items, with audits of either length or of one.
fn items(random: &mut Random, m: usize) -> Vec<Vec<u8>> {
    let seasons = [&[Old, New][..], &[Old], &[New]][random.below(3)];
    random_items(random, seasons, m)
}

/// Items for a sheet, at least so many.
fn some_items(random: &mut Random, least: usize) -> Vec<Vec<u8>> {
    let most = [4, 12, 64][random.below(3)];
    let m = random.between(least, most);
    items(random, m)
}

fn of_texts(random: &mut Random, texts: &[Vec<u8>]) -> Vec<u8> {
    write_sheet(random.below(8) as u8, texts)
}

/// A valid sheet of at least so many items.
fn sheet(random: &mut Random, least: usize) -> Vec<u8> {
    let items = some_items(random, least);
    of_texts(random, &items)
}

/// A valid sheet of so many items.
pub fn of_items(random: &mut Random, m: usize) -> Vec<u8> {
    let items = items(random, m);
    of_texts(random, &items)
}

/// A sheet of some items and these, in any order.
fn with_more(random: &mut Random, more: Vec<Vec<u8>>) -> Vec<u8> {
    let m = random.below(12);
    let mut items = [items(random, m), more].concat();
    random.shuffle(&mut items);
    of_texts(random, &items)
}

/// An audit of one ballot without its place and with it.
fn audits_of_either_length(random: &mut Random) -> Vec<u8> {
    let audits = [Old, New].map(|season| audit(random, season, FREE));
    with_more(random, audits.into())
}

/// Two audits of one ballot, from places that are the same, or not.
fn with_two_audits(random: &mut Random, same: bool) -> Vec<u8> {
    let audits = two_audits(random, same);
    with_more(random, audits)
}

/// An audit with so many bytes behind its kind, or without it.
fn with_audit(random: &mut Random, more: isize) -> Vec<u8> {
    let mut audit = [audit(random, Old, FREE), random.bytes(2)].concat();
    audit.truncate((5 + more) as usize);
    with_more(random, vec![audit])
}

fn shuffled(random: &mut Random) -> Vec<u8> {
    let mut items = some_items(random, 2);
    random.shuffle(&mut items);
    of_texts(random, &items)
}

/// Two different numbers below the bound.
fn two_below(random: &mut Random, bound: usize) -> [usize; 2] {
    let one = random.below(bound);
    [one, (one + random.between(1, bound - 1)) % bound]
}

/// An item that is the copy of another, or nearly, with its pairs in order.
fn with_copy(random: &mut Random, nearly: bool) -> Vec<u8> {
    let mut items = some_items(random, 2);
    let [from, to] = two_below(random, items.len());
    items[to] = items[from].clone();
    if nearly {
        let at = [random.below(4), items[to].len() - 1][random.below(2)];
        items[to][at] ^= if at == 4 { 1 } else { 1 << random.below(8) };
    }
    of_texts(random, &items)
}

/// The texts of two items, each in the place of the other.
fn texts_exchanged(random: &mut Random) -> Vec<u8> {
    let mut items = some_items(random, 2);
    let bytes = of_texts(random, &items);
    let [one, other] = two_below(random, items.len());
    items.swap(one, other);
    [&bytes[..texts(&bytes)], &items.concat()].concat()
}

/// Where the texts of a sheet begin.
fn texts(bytes: &[u8]) -> usize {
    pair_behind(HEAD, bytes[1] as usize)
}

/// A byte of a part of a sheet is another one.
fn changed(random: &mut Random, part: fn(&[u8]) -> Range<usize>) -> Vec<u8> {
    let mut bytes = sheet(random, 1);
    let part = part(&bytes);
    let at = part.start + random.below(part.len());
    let by = [1, 2, 4, 255, random.between(1, 255)][random.below(5)];
    bytes[at] = bytes[at].wrapping_add(by as u8);
    bytes
}

/// Another period or count: of the least that are wrong, a neighbour, or any.
fn with_head(random: &mut Random, at: usize) -> Vec<u8> {
    let mut bytes = sheet(random, 0);
    let (more, fewer) = (bytes[at].wrapping_add(1), bytes[at].wrapping_sub(1));
    bytes[at] = [8, 65, more, fewer, random.bits() as u8][random.below(5)];
    bytes
}

fn damaged(random: &mut Random, damage: fn(&mut Random, &mut [u8], usize, usize)) -> Vec<u8> {
    let mut bytes = sheet(random, 2);
    let m = bytes[1] as usize;
    damage(random, &mut bytes, HEAD, m);
    bytes
}

fn with_odd_item(random: &mut Random) -> Vec<u8> {
    let mut items = some_items(random, 1);
    let at = random.below(items.len());
    items[at] = odd_item(random);
    of_texts(random, &items)
}

/// At most 8, and small ones.
fn few_bytes(random: &mut Random) -> Vec<u8> {
    (0..random.below(9)).map(|_| [0, random.below(10) as u8][random.below(2)]).collect()
}

fn any_bytes(random: &mut Random) -> Vec<u8> {
    let length = random.between(0, 60);
    let mut bytes = random.bytes(length);
    bytes.iter_mut().take(HEAD).for_each(|byte| *byte %= 8);
    bytes
}

fn byte_more(random: &mut Random) -> Vec<u8> {
    let mut bytes = sheet(random, 0);
    bytes.insert(random.below(bytes.len() + 1), [0, random.bits() as u8][random.below(2)]);
    bytes
}

fn byte_fewer(random: &mut Random) -> Vec<u8> {
    let mut bytes = sheet(random, 0);
    bytes.remove(random.below(bytes.len()));
    bytes
}

fn with_tail(random: &mut Random) -> Vec<u8> {
    let length = random.between(1, 8);
    [sheet(random, 0), random.bytes(length)].concat()
}

fn cut(random: &mut Random) -> Vec<u8> {
    let mut bytes = sheet(random, 0);
    bytes.truncate(random.below(bytes.len()));
    bytes
}

fn too_many(random: &mut Random) -> Vec<u8> {
    let m = [65, random.between(65, 255)][random.below(2)];
    of_items(random, m)
}

/// The offsets from one of these items on are moved. As many bytes come in
/// there, or go: then the last end is the sheet's end. Or none do.
fn moved(random: &mut Random, from: Range<usize>, by: isize) -> Vec<u8> {
    let mut bytes = sheet(random, from.start + 1);
    let m = bytes[1] as usize;
    let k = random.between(from.start, from.end.min(m) - 1);
    let start = number(&bytes, pair_behind(HEAD, k));
    (k..m).for_each(|k| add(&mut bytes, pair_behind(HEAD, k), by));
    if random.chance(70) {
        let old = start - by.min(0).unsigned_abs()..start;
        let new = random.bytes(by.max(0) as usize);
        bytes.splice(old, new);
    }
    bytes
}

fn pairs_exchanged(random: &mut Random) -> Vec<u8> {
    let mut bytes = sheet(random, 2);
    let count = bytes[1] as usize;
    let [one, other] = two_below(random, count).map(|k| pair_behind(HEAD, k));
    (0..4).for_each(|at| bytes.swap(one + at, other + at));
    bytes
}

/// The first item would end before it begins if sums wrapped, and the second
/// begins there.
fn wrapped(random: &mut Random) -> Vec<u8> {
    let mut bytes = sheet(random, 2);
    let [first, second] = [0, 1].map(|k| pair_behind(HEAD, k));
    let by = random.below(number(&bytes, first)) as isize - number(&bytes, second) as isize;
    add(&mut bytes, first + 2, by);
    add(&mut bytes, second, by);
    add(&mut bytes, second + 2, -by);
    bytes
}
