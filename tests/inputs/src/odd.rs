//! Rehearsals that are refused, and bytes of any sort.

use crate::answers::last_op;
use crate::damaged::damaged_table;
use crate::making::Making;
use crate::random::Random;
use crate::rehearsed::Rehearsed;
use crate::seasons::{with_audit, with_second};
use crate::tables::{head, item_count, number, pair_at, random_table, Shape};
use reference::season::Season;
use reference::sheet::{read_sheet, write_sheet};
use reference::table::read_front;

/// The bytes of some steps of a run on any table.
fn some_steps(random: &mut Random) -> Vec<u8> {
    let text = random_table(random, 4);
    let mut making = Making::on(random, text);
    making.wander(10);
    making.steps.concat()
}

/// A damaged table, with steps or none, refused with 1 to 4 in turn.
pub fn damaged(random: &mut Random, number: usize) -> Vec<u8> {
    loop {
        let mut input = damaged_table(random);
        if random.once_in(2) {
            input.extend(some_steps(random));
        }
        if Rehearsed::new(&input).is_refused(1 + number as u8 % 4) {
            return input;
        }
    }
}

/// A table with an audit of another season, and steps.
pub fn other_audit(random: &mut Random, number: usize) -> Vec<u8> {
    let (season, more) = [(Season::New, 0), (Season::Old, 1), (Season::Weighted, 0)][number % 3];
    [with_audit(random, season, more), some_steps(random)].concat()
}

/// Whether all items are such as a sheet takes, and only their season is wrong.
pub fn has_items_of_any_season(rehearsed: &Rehearsed) -> bool {
    let input = rehearsed.input;
    let pairs = (0..=last(input)).map(|k| pair(input, k));
    let texts: Vec<Vec<u8>> =
        pairs.map(|(offset, length)| input[offset..offset + length].to_vec()).collect();
    read_sheet(&write_sheet(0, &texts)).is_ok()
}

/// A table of a season since the old one but for its second byte, and steps.
pub fn no_season(random: &mut Random, number: usize) -> Vec<u8> {
    let second = [0, 1, 4, 255][number % 4];
    [with_second(random, &[second]), some_steps(random)].concat()
}

/// Whether only the second byte keeps the input from a season.
pub fn lacks_its_second(rehearsed: &Rehearsed) -> bool {
    let is_table = |mark: [u8; 2], rest: &[u8]| read_front(&[&mark, rest].concat()).is_ok();
    match rehearsed.input {
        [0, 2 | 3, ..] => false,
        [0, _, rest @ ..] => is_table([0, 2], rest) || is_table([0, 3], rest),
        _ => false,
    }
}

/// A weighted table that is cut before its last weight.
pub fn few_weights(random: &mut Random, _number: usize) -> Vec<u8> {
    let mut input = Shape::random(random, 16).table_of(random, Season::Weighted);
    input.truncate(random.between(8, head(&input) - 1));
    input
}

/// Whether an input has a weighted table's six fields, and not its weights.
pub fn lacks_weights(rehearsed: &Rehearsed) -> bool {
    let input = rehearsed.input;
    Season::of(input).has_weights() && (8..head(input)).contains(&input.len())
}

/// Any bytes; any bytes after a table; or steps with small numbers anywhere.
pub fn garbage(random: &mut Random, number: usize) -> Vec<u8> {
    let length = random.between(40, 400);
    let mut any = random.bytes(length);
    if number.is_multiple_of(3) {
        return any;
    }
    if number % 3 == 1 {
        any.iter_mut().for_each(|byte| *byte %= last_op() + 2);
    }
    [random_table(random, 16), any].concat()
}

/// Each length from 0 to 8: the beginning of a table and steps, or any bytes.
pub fn few_bytes(random: &mut Random, number: usize) -> Vec<u8> {
    let text = Shape { m: 0, ..Shape::random(random, 16) }.table(random);
    let any = random.bytes(8);
    let from = if (number / 9).is_multiple_of(2) { [text, any].concat() } else { any };
    from[..number % 9].to_vec()
}

/// A valid table with at least so many items.
fn with_items(random: &mut Random, least: usize) -> Vec<u8> {
    Shape { m: random.between(least, 12), ..Shape::random(random, 16) }.table(random)
}

/// Offset and length of pair k.
fn pair(input: &[u8], k: usize) -> (usize, usize) {
    (number(input, pair_at(input, k)), number(input, pair_at(input, k) + 2))
}

fn set_pair(input: &mut [u8], k: usize, offset: usize, length: usize) {
    let [offset, length] = [offset, length].map(|number| (number as u16).to_be_bytes());
    let at = pair_at(input, k);
    input[at..at + 4].copy_from_slice(&[offset, length].concat());
}

/// The number of the last item.
fn last(input: &[u8]) -> usize {
    item_count(input) - 1
}

/// The end of each pair; none if the pairs are cut short.
fn ends(rehearsed: &Rehearsed) -> Vec<usize> {
    let input = rehearsed.input;
    let m = item_count(input);
    let whole = if input.len() < pair_at(input, m) { 0 } else { m };
    (0..whole).map(|k| pair(input, k)).map(|(offset, length)| offset + length).collect()
}

/// Whether the last end is so.
pub fn ends_so(rehearsed: &Rehearsed, so: impl Fn(usize) -> bool) -> bool {
    ends(rehearsed).last().is_some_and(|end| so(*end))
}

/// Whether some end is beyond 65,536.
pub fn wraps(rehearsed: &Rehearsed) -> bool {
    ends(rehearsed).into_iter().any(|end| end > 65_536)
}

/// A table cut after its pairs, now and then with a bad item too.
pub fn cut(random: &mut Random, _number: usize) -> Vec<u8> {
    let mut input = with_items(random, 1);
    let (items, _) = pair(&input, 0);
    if random.once_in(2) {
        input[items + 4] = 9;
    }
    input.truncate(random.between(items, input.len() - 1));
    input
}

pub fn end_in_header(random: &mut Random, _number: usize) -> Vec<u8> {
    let mut input = with_items(random, 1);
    let (k, offset, length) = (last(&input), random.below(4), random.below(4));
    set_pair(&mut input, k, offset, length);
    input.extend(some_steps(random));
    input
}

/// The last end is 65,536; the input is as long as that, or shorter.
pub fn end_of_65536(random: &mut Random, number: usize) -> Vec<u8> {
    let mut input = with_items(random, 1);
    let (k, (offset, _)) = (last(&input), pair(&input, last(&input)));
    set_pair(&mut input, k, offset, 65_536 - offset);
    if number.is_multiple_of(2) {
        input.resize(65_536, random.bits() as u8);
    }
    input
}

/// An end that would be in order if sums wrapped: the last, or the first.
pub fn wrapped(random: &mut Random, number: usize) -> Vec<u8> {
    let mut input = with_items(random, 2);
    if number.is_multiple_of(2) {
        let (k, (offset, _)) = (last(&input), pair(&input, last(&input)));
        set_pair(&mut input, k, offset, 65_536 - random.between(1, offset - 1));
    } else {
        let (first, (second, length)) = (pair(&input, 0).0, pair(&input, 1));
        let back = random.between(1, first - 1);
        set_pair(&mut input, 0, first, 65_536 - back);
        set_pair(&mut input, 1, first - back, second + length - (first - back));
    }
    input.extend(some_steps(random));
    input
}
