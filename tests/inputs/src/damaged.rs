//! Tables of every season that are damaged, and any bytes.

use crate::random::Random;
use crate::seasons::SORTS;
use crate::sorts::of_any;
use crate::tables::{add, head, item_count, number, pair_behind};
use crate::tables::{random_items, random_season, random_table};
use crate::weights;
use reference::table::write_table_of;

/// A valid table, cut, made longer, with a byte changed, an odd item or twins; one
/// of every sort that seasons or weights make; or any bytes at all.
pub fn damaged_table(random: &mut Random) -> Vec<u8> {
    let mut table = random_table(random, 16);
    let (head, m, at) = (head(&table), item_count(&table), random.below(table.len()));
    let (length, more) = (random.below(60), random.between(1, 4));
    match random.below(13) {
        0 => table.truncate(at),
        1 => table.extend(random.bytes(more)),
        2 => table = random.bytes(length),
        3 => table[random.below(head)] = random.below(20) as u8,
        4 => table[at] = table[at].wrapping_add([1, 255][random.below(2)]),
        5 => table[at] = random.bits() as u8,
        6 => copy_item(random, &mut table, head, m),
        7 => move_end(random, &mut table, head, m),
        8 => table = with_odd_item(random),
        9 | 10 => table = of_any(&SORTS, random),
        11 => table = of_any(&weights::SORTS, random),
        _ => {}
    }
    table
}

/// Writes the bytes of one of m items over another, as many as there is room for.
pub fn copy_item(random: &mut Random, bytes: &mut [u8], head: usize, m: usize) {
    if m > 0 {
        let pairs = [random.below(m), random.below(m)].map(|k| pair_behind(head, k));
        let [(from, length), (to, room)] =
            pairs.map(|at| (number(bytes, at), number(bytes, at + 2)));
        bytes.copy_within(from..from + length.min(room), to);
    }
}

/// Moves the end of one of m items by a byte; the next one, if any, begins there.
pub fn move_end(random: &mut Random, bytes: &mut [u8], head: usize, m: usize) {
    let k = random.below(m);
    let by = [1, -1][random.below(2)];
    if k < m {
        add(bytes, pair_behind(head, k) + 2, by);
    }
    if k + 1 < m {
        add(bytes, pair_behind(head, k + 1), by);
        add(bytes, pair_behind(head, k + 1) + 2, -by);
    }
}

/// A table with an odd item.
fn with_odd_item(random: &mut Random) -> Vec<u8> {
    let (season, m) = (random_season(random), random.between(1, 8));
    let mut items = random_items(random, &[season], m);
    items[random.below(m)] = odd_item(random);
    write_table_of(season, 3, 3, 7, 2, &items)
}

/// Of any length up to 40 and any small kind.
pub fn odd_item(random: &mut Random) -> Vec<u8> {
    let length = [random.below(41), 5, 6, 7, 37, 38][random.below(6)];
    let mut item = random.bytes(length);
    if length > 4 {
        item[4] = random.below(5) as u8;
    }
    item
}
