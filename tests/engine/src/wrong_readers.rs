//! Engines that go wrong on purpose at the weights of a table, of document 02's P8. Each
//! must be found.

use inputs::seasons::move_offsets;
use inputs::tables::head;
use reference::table::LEAST_THRESHOLD;

/// What judges a table.
pub type CheckTable = fn(&[u8]) -> u8;

/// The number of peers, and the threshold, of a weighted table that is long enough for
/// its weights; and their sum.
fn weighed(table: &[u8]) -> Option<(usize, usize, usize)> {
    match table {
        [0, 3, n @ 1..=16, t, ..] => {
            let weights = table.get(8..head(table))?;
            let sum = weights.iter().map(|weight| *weight as usize).sum();
            Some((*n as usize, *t as usize, sum))
        }
        _ => None,
    }
}

fn least(sum: usize) -> usize {
    2 * sum / 3 + 1
}

/// The verdict on a table with another threshold, if it is weighted.
fn with_threshold(table: &[u8], other: fn(n: usize, t: usize, sum: usize) -> usize) -> u8 {
    let mut altered = table.to_vec();
    if let Some((n, t, sum)) = weighed(table) {
        altered[3] = other(n, t, sum) as u8;
    }
    plain::check_table(&altered)
}

/// The verdict on a table with other weights, if it is weighted; its threshold is in
/// range of these if it was before.
fn with_weights(table: &[u8], other: fn(&mut [u8])) -> u8 {
    let mut altered = table.to_vec();
    if let Some((_, t, sum)) = weighed(table) {
        other(&mut altered[8..head(table)]);
        let others = weighed(&altered).map_or(0, |weighed| weighed.2);
        altered[3] = if (least(sum)..=sum).contains(&t) { least(others) as u8 } else { 0 };
    }
    plain::check_table(&altered)
}

/// The verdict on a table with the bytes behind each weight in its place.
fn one_byte_late(table: &[u8]) -> u8 {
    let (mut altered, head) = (table.to_vec(), head(table));
    if weighed(table).is_some() {
        altered[8..head].fill(0);
        let late = &table[9..table.len().min(head + 1)];
        altered[8..8 + late.len()].copy_from_slice(late);
    }
    plain::check_table(&altered)
}

pub const WRONG_READERS: [(&str, CheckTable); 17] = [
    ("0 and 3 refused", |table| match table {
        [0, 3, ..] => 1,
        _ => plain::check_table(table),
    }),
    ("4 taken for 3", |table| match table {
        [0, 4, rest @ ..] => plain::check_table(&[&[0, 3], rest].concat()),
        _ => plain::check_table(table),
    }),
    ("t <= n judged for t <= W", |table| {
        with_threshold(table, |n, t, _| if t > n { 0 } else { t })
    }),
    ("a threshold up to 16", |table| with_threshold(table, |_, t, _| if t > 16 { 0 } else { t })),
    ("the least threshold for n", |table| {
        with_threshold(table, |n, t, sum| match t {
            t if t >= LEAST_THRESHOLD[n - 1] && t < least(sum) => least(sum),
            t => t,
        })
    }),
    ("two thirds enough", |table| {
        with_threshold(table, |_, t, sum| if 3 * t == 2 * sum { t + 1 } else { t })
    }),
    ("all too many", |table| with_threshold(table, |_, t, sum| if t == sum { 0 } else { t })),
    ("more than all", |table| with_threshold(table, |_, t, sum| t.min(sum))),
    ("a weight of 0 taken", |table| {
        with_weights(table, |weights| {
            weights.iter_mut().for_each(|weight| *weight += (*weight == 0) as u8)
        })
    }),
    ("a weight of 5 taken", |table| {
        with_weights(table, |weights| {
            weights.iter_mut().for_each(|weight| *weight -= (*weight == 5) as u8)
        })
    }),
    ("any weight taken", |table| with_weights(table, |weights| weights.fill(1))),
    ("the first weight not judged", |table| with_weights(table, |weights| weights[0] = 1)),
    ("the last weight not judged", |table| {
        with_weights(table, |weights| {
            weights.iter_mut().last().into_iter().for_each(|last| *last = 1)
        })
    }),
    ("weights read one byte too late", one_byte_late),
    ("pairs at 8, without weights", |table| match table {
        [0, 3, rest @ ..] => plain::check_table(&[&[0, 2], rest].concat()),
        _ => plain::check_table(table),
    }),
    ("first offset 8 + 4m", |table| {
        let mut moved = table.to_vec();
        if let Some((n, _, _)) = weighed(table) {
            move_offsets(&mut moved, n as isize);
        }
        plain::check_table(&moved)
    }),
    ("eight bytes are a header", |table| match table {
        [0, 3, ..] if (8..head(table)).contains(&table.len()) => 2,
        _ => plain::check_table(table),
    }),
];
