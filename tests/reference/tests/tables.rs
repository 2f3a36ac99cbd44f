//! Refusals 1 to 4 in their order, for a table alone and at the front of a
//! rehearsal input.

mod common;

use common::*;
use reference::season::Season;
use reference::table::{read_front, read_table};

#[test]
fn header_fields() {
    check_thresholds(&[], &[]);
    for periods in 0..=255 {
        let expected = if (1..=8).contains(&periods) { 0 } else { 1 };
        assert_eq!(both(&[1, 1, 0, 1, periods, 0]), expected);
    }
    assert_eq!(both(&[3, 3, 0, 7, 1, 0]), 0);
    assert_eq!(both(&[3, 3, 0, 8, 1, 0]), 1);
    assert_eq!(both(&[3, 3, 128, 0, 1, 0]), 1);
    assert_eq!(both(&[16, 11, 255, 255, 1, 0]), 0);
    assert_eq!(read_table(&[16, 11, 128, 1, 1, 0]).unwrap().honest, [1, 16].into());
}

#[test]
fn header_cut_short() {
    for length in 0..6 {
        assert_eq!(both(&[3, 3, 0, 7, 1, 0][..length]), 1);
    }
    // A field out of range, and pairs cut short as well: 1.
    assert_eq!(both(&[3, 2, 0, 7, 1, 9]), 1);
    assert_eq!(both(&[3, 3, 0, 7, 1, 65]), 1);
    assert_eq!(both(&[3, 3, 0, 7, 1, 64]), 2);
}

#[test]
fn no_items() {
    assert_eq!(alone(&[3, 3, 0, 7, 1, 0, 9]), 2);
    assert_eq!(read_front(&[3, 3, 0, 7, 1, 0, 9]).unwrap().1, 6);
}

#[test]
fn pairs() {
    let table = table_bytes(3, 3, &[1], 1, &[audit(1), vote(1, &[5]), audit(3)]);
    assert_eq!(both(&table), 0);
    assert_eq!(read_front(&table).unwrap().1, 18 + 5 + 6 + 5);
    for length in 6..table.len() {
        assert_eq!(both(&table[..length]), 2);
    }
    // One more byte belongs to the steps of a rehearsal, but to no table.
    let longer = [&table[..], &[0]].concat();
    assert_eq!(alone(&longer), 2);
    assert_eq!(read_front(&longer).unwrap().1, table.len());
    // Any other number in any pair: 2, but for the last length in a rehearsal.
    for at in 6..18 {
        let mut bad = table.clone();
        bad[at] ^= 1;
        assert_eq!(alone(&bad), 2, "byte {at}");
        assert_eq!(front(&bad), if at == 17 { 3 } else { 2 }, "byte {at}");
    }
}

#[test]
fn pairs_before_items() {
    // A last end inside the header is a matter of pairs.
    assert_eq!(both(&[1, 1, 0, 1, 1, 1, 0, 0, 0, 3]), 2);
    // An input shorter than the last end is 2, whatever the items are.
    assert_eq!(both(&[1, 1, 0, 1, 1, 1, 0, 10, 0, 9, 0, 0, 0, 7, 9]), 2);
    // Length 0 is in order as a pair.
    assert_eq!(both(&[1, 1, 0, 1, 1, 1, 0, 10, 0, 0]), 3);
    assert_eq!(both(&[1, 1, 0, 1, 1, 2, 0, 14, 0, 0, 0, 14, 0, 0]), 3);
    // Offset plus length never wraps: 10 + 65526 is 65536.
    let mut long = vec![1, 1, 0, 1, 1, 1, 0, 10, 0xFF, 0xF6];
    long.resize(65_536, 1);
    assert_eq!(both(&long), 3);
    long.pop();
    assert_eq!(both(&long), 2);
}

#[test]
fn items() {
    for (season, audit) in [(Season::Old, 5), (Season::New, 6), (Season::Weighted, 6)] {
        let one = |item: Vec<u8>| both(&table_bytes_of(season, 3, 3, &[1], 1, &[item]));
        for (length, kind) in (0..=40).flat_map(|length| (0..=5).map(move |kind| (length, kind))) {
            let mut item = vec![0; length];
            item.get_mut(4).into_iter().for_each(|byte| *byte = kind);
            let taken = match kind {
                1 => (6..=37).contains(&length),
                2 => length == audit,
                3 => length == 5,
                _ => false,
            };
            let expected = if taken { 0 } else { 3 };
            assert_eq!(one(item), expected, "{season:?}, kind {kind}, length {length}");
        }
    }
}

#[test]
fn twins() {
    let table = |items: &[Vec<u8>]| both(&table_bytes(3, 3, &[1], 1, items));
    assert_eq!(table(&[vote(7, &[1]), audit(7), vote(7, &[1])]), 4);
    assert_eq!(table(&[vote(7, &[1]), vote(7, &[1, 0]), vote(8, &[1])]), 0);
    // A bad item after two twins is still judged first.
    assert_eq!(table(&[audit(7), audit(7), vote(7, &[])]), 3);
}
