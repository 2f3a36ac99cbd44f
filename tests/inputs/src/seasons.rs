//! Tables of every season, and such as are of none, of document 02's P5: each is right
//! but for what its sort names. Those that are about weights are in `weights`.

use crate::places::{two_audits, FREE};
use crate::random::Random;
use crate::sorts::{sort, Sort};
use crate::tables::{add, audit, head, item_count, pair_behind};
use crate::tables::{placed_season, random_items, random_season, Shape};
use reference::season::Season::{self, New, Old};
use std::ops::Range;

pub static SORTS: [Sort; 24] = [
    sort("the old season", |random| table(random, Old, 0), &[0]),
    sort("the new season", |random| table(random, New, 0), &[0]),
    sort("audits from two places", |random| with_two_audits(random, false), &[0]),
    sort("two audits from one place", |random| with_two_audits(random, true), &[4]),
    sort("an audit without its place", |random| with_audit(random, New, 0), &[3]),
    sort("a place in an old table", |random| with_audit(random, Old, 1), &[3]),
    sort("seven bytes in the old season", |random| with_audit(random, Old, 2), &[3]),
    sort("seven bytes in the new season", |random| with_audit(random, New, 2), &[3]),
    sort("a wrong audit and twins", wrong_audit_and_twins, &[3]),
    sort("the other season's items", other_items, &[0, 3]),
    sort("0 and another byte", |random| with_second(random, &[0, 1, 4, 255]), &[1]),
    sort("0 and any other byte", |random| with_second(random, &[]), &[1]),
    sort("the 0 left out", |random| changed(random, New, 0..1, &[]), &[1]),
    sort("a second 0", |random| changed(random, New, 0..0, &[0]), &[1]),
    sort("another first byte", |random| changed(random, New, 0..1, &[1]), &[1]),
    sort("0 and 2 twice", |random| changed(random, New, 0..0, &[0, 2]), &[1]),
    sort("0 and 2 left out", |random| changed(random, New, 0..2, &[]), &[0, 2]),
    sort("0 and 2 before an old table", |random| changed(random, Old, 0..0, &[0, 2]), &[0, 2]),
    sort("0 before an old table", |random| changed(random, Old, 0..0, &[0]), &[1]),
    sort("0 for an old table's n", |random| changed(random, Old, 0..1, &[0]), &[1]),
    sort("cut to six bytes", |random| cut(random, 6), &[1]),
    sort("cut to seven bytes", |random| cut(random, 7), &[1]),
    sort("a header out of range", out_of_range, &[1]),
    sort("the other season's first offset", other_offsets, &[2]),
];

fn shape(random: &mut Random) -> Shape {
    Shape::random(random, 16)
}

/// A valid table of the season with at least so many items.
fn table(random: &mut Random, season: Season, least: usize) -> Vec<u8> {
    let shape = shape(random);
    Shape { m: shape.m.max(least), ..shape }.table_of(random, season)
}

/// A table of these texts in any order.
fn of_texts(random: &mut Random, season: Season, mut texts: Vec<Vec<u8>>) -> Vec<u8> {
    random.shuffle(&mut texts);
    shape(random).with_texts(random, season, &texts)
}

/// A few items of the season.
fn some_items(random: &mut Random, season: Season) -> Vec<Vec<u8>> {
    let m = random.below(9);
    random_items(random, &[season], m)
}

/// Two audits of one ballot, from places that are the same, or not.
fn with_two_audits(random: &mut Random, same: bool) -> Vec<u8> {
    let season = placed_season(random);
    let items = [some_items(random, season), two_audits(random, same)].concat();
    of_texts(random, season, items)
}

/// An audit with so many bytes behind its kind.
fn long_audit(random: &mut Random, more: usize) -> Vec<u8> {
    let ballot = [FREE, random.below(3) as u32][random.below(2)];
    [audit(random, Old, ballot), random.bytes(more)].concat()
}

/// A table with such an audit.
pub fn with_audit(random: &mut Random, season: Season, more: usize) -> Vec<u8> {
    let mut items = some_items(random, season);
    items.push(long_audit(random, more));
    of_texts(random, season, items)
}

/// Both: 3 is judged before 4.
fn wrong_audit_and_twins(random: &mut Random) -> Vec<u8> {
    let season = random_season(random);
    let mut items = some_items(random, season);
    let twin = audit(random, season, FREE);
    let more = if season == Old { 1 } else { 0 };
    items.extend([twin.clone(), twin, long_audit(random, more)]);
    of_texts(random, season, items)
}

/// Items of the old season in a table of a later one, or the reverse: without audits
/// they fit.
fn other_items(random: &mut Random) -> Vec<u8> {
    let placed = placed_season(random);
    let [season, other] = if random.once_in(2) { [Old, placed] } else { [placed, Old] };
    let items = some_items(random, other);
    of_texts(random, season, items)
}

/// A table of a season since the old one whose second byte is one of these, or any but 2
/// and 3.
pub fn with_second(random: &mut Random, bytes: &[u8]) -> Vec<u8> {
    let season = placed_season(random);
    let mut table = table(random, season, 0);
    let any = random.between(4, 257) as u8;
    table[1] = random.pick(bytes.iter().copied()).unwrap_or(any);
    table
}

/// A table with other bytes for some of its first; now and then one without items.
fn changed(random: &mut Random, season: Season, old: Range<usize>, new: &[u8]) -> Vec<u8> {
    let mut table = match random.once_in(3) {
        true => of_texts(random, season, Vec::new()),
        false => table(random, season, 1),
    };
    table.splice(old, new.iter().copied());
    table
}

fn cut(random: &mut Random, length: usize) -> Vec<u8> {
    let mut table = table(random, New, 0);
    table.truncate(length);
    table
}

/// A table of the new season with n, t, P or m just out of range, or far.
fn out_of_range(random: &mut Random) -> Vec<u8> {
    let mut table = table(random, New, 0);
    let n = table[2];
    let (at, bytes) = match random.below(4) {
        0 => (2, [0, 17, 255]),
        1 => (3, [0, n + 1, 255]),
        2 => (6, [0, 9, 255]),
        _ => (7, [65, 66, 255]),
    };
    table[at] = bytes[random.below(3)];
    table
}

/// Every offset is what it would be in the other season.
fn other_offsets(random: &mut Random) -> Vec<u8> {
    let (season, by) = [(Old, 2), (New, -2)][random.below(2)];
    let mut table = table(random, season, 1);
    move_offsets(&mut table, by);
    table
}

/// Adds to every offset of a table that is not cut off.
pub fn move_offsets(table: &mut [u8], by: isize) {
    let (head, length) = (head(table), table.len());
    let offsets = (0..item_count(table)).map(|k| pair_behind(head, k));
    offsets.filter(|at| at + 2 <= length).for_each(|at| add(table, at, by));
}
