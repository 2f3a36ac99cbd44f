//! Weighted tables, of document 02's P8, their bytes reckoned by hand.

mod common;

use common::*;
use reference::report::rehearse;
use reference::season::Season;
use reference::sheet::rehearsed_sheet;
use reference::table::{read_front, read_table, Item, Kind};

/// Case R's table with weights: its peer weighs 4, so t is 3 or 4. The first offset is
/// 8 + 1 + 4 = 13, the audit is of place 5, and the end is 13 + 6 = 19.
const ONE_PEER: [u8; 19] = [0, 3, 1, 3, 0, 1, 1, 1, 4, 0, 13, 0, 6, 0, 0, 0, 7, 2, 5];

/// Five peers without items, of which 2, 3 and 5 are honest. W is 12 and t is 9.
const NO_ITEMS: [u8; 13] = [0, 3, 5, 9, 0, 0b10110, 6, 0, 4, 3, 2, 1, 2];

#[test]
fn weights_behind_the_header() {
    let table = read_table(&NO_ITEMS).unwrap();
    assert_eq!((table.season, table.n, table.t), (Season::Weighted, 5, 9));
    assert_eq!((table.periods, table.m(), table.honest_count()), (6, 0, 3));
    assert_eq!(table.weights, [4, 3, 2, 1, 2]);
    assert_eq!((table.whole_weight(), table.honest_weight()), (12, 3 + 2 + 2));
    assert_eq!((table.weight(&[].into()), table.weight(&[1, 4].into())), (0, 5));
    assert_eq!(read_front(&[&NO_ITEMS[..], &[1; 5]].concat()).unwrap().1, 13);
    let table = read_table(&ONE_PEER).unwrap();
    assert_eq!(table.items, [Item { ballot: 7, kind: Kind::PlacedAudit(5) }]);
    assert_eq!(read_front(&[&ONE_PEER[..], &[1; 5]].concat()).unwrap().1, 19);
    assert_eq!(weighted(&[4], 3, &[1], 1, &[placed_audit(7, 5)]), ONE_PEER);
    assert_eq!(weighted(&[4, 3, 2, 1, 2], 9, &[2, 3, 5], 6, &[]), NO_ITEMS);
}

/// In the older seasons every weight is 1.
#[test]
fn weights_of_older_tables() {
    for season in [Season::Old, Season::New] {
        let table = read_table(&table_bytes_of(season, 5, 4, &[2, 5], 1, &[])).unwrap();
        assert_eq!(table.weights, [1; 5]);
        assert_eq!((table.whole_weight(), table.honest_weight()), (5, 2));
    }
}

/// Under 8 + n bytes in all is header, and from there on the pairs are short.
#[test]
fn cut_short() {
    for length in 0..13 {
        assert_eq!(both(&NO_ITEMS[..length]), 1, "{length} bytes");
    }
    for length in 0..19 {
        let expected = if length < 9 { 1 } else { 2 };
        assert_eq!(both(&ONE_PEER[..length]), expected, "{length} bytes");
    }
    assert_eq!((both(&NO_ITEMS), both(&ONE_PEER)), (0, 0));
    assert_eq!(alone(&[&NO_ITEMS[..], &[0]].concat()), 2);
    assert_eq!(alone(&[&ONE_PEER[..], &[0]].concat()), 2);
    let sixteen = weighted(&[4; 16], 43, &[], 1, &[]);
    assert_eq!((both(&sixteen), both(&sixteen[..23])), (0, 1));
}

/// The second weight of three beside 2 and 3, with t from 5 to 7: so W is 6 to 9.
#[test]
fn every_weight() {
    for (t, taken) in [(5, &[1, 2][..]), (6, &[1, 2, 3]), (7, &[2, 3, 4])] {
        for weight in 0..=255 {
            let expected = if taken.contains(&weight) { 0 } else { 1 };
            let table = weighted(&[2, weight, 3], t, &[], 1, &[]);
            assert_eq!(both(&table), expected, "t {t}, weight {weight}");
        }
    }
}

/// Any of sixteen places can be wrong, whatever the others are.
#[test]
fn a_wrong_weight_in_every_place() {
    for (at, wrong) in (0..16).flat_map(|at| [0, 5, 255].map(|wrong| (at, wrong))) {
        let mut weights = [3; 16];
        weights[at] = wrong;
        // If it counted, W would be 45, 50 or 300: some t here would do for each.
        for t in [31, 43, 48, 201] {
            assert_eq!(both(&weighted(&weights, t, &[], 1, &[])), 1, "{wrong} at {at}, t {t}");
        }
    }
}

/// Every sum of weights and every t: twice W divided by three, rounded down, plus one is
/// the least, and W the most; for sixteen peers of weight 4 that is 43 to 64.
#[test]
fn every_sum() {
    for sum in 1..=64usize {
        let n = sum.div_ceil(4);
        let mut weights = vec![4; n];
        weights[0] = (sum - 4 * (n - 1)) as u8;
        let range = 2 * sum / 3 + 1..=sum;
        for t in 0..=255 {
            let expected = if range.contains(&(t as usize)) { 0 } else { 1 };
            assert_eq!(both(&weighted(&weights, t, &[], 1, &[])), expected, "W {sum}, t {t}");
        }
    }
}

/// Weights of 1 leave the thresholds as they are in the older seasons.
#[test]
fn header_fields() {
    check_thresholds(&[0, 3], &[1]);
    for byte in 0..=255 {
        let periods = if (1..=8).contains(&byte) { 0 } else { 1 };
        assert_eq!(both(&[0, 3, 1, 3, 0, 1, byte, 0, 4]), periods, "{byte} periods");
        // Without pairs any number of items is 2, but 0, and above 64 it is 1.
        let items = if byte == 0 { 0 } else { 1 + (byte <= 64) as u8 };
        assert_eq!(both(&[0, 3, 1, 3, 0, 1, 1, byte, 4]), items, "{byte} items");
    }
    assert_eq!(both(&[0, 3, 2, 4, 0, 3, 1, 0, 4, 1]), 0);
    assert_eq!(both(&[0, 3, 2, 4, 0, 4, 1, 0, 4, 1]), 1);
    assert_eq!(both(&[0, 3, 2, 4, 128, 0, 1, 0, 4, 1]), 1);
    // No peers, and seventeen.
    assert_eq!(both(&[0, 3, 0, 0, 0, 0, 1, 0]), 1);
    assert_eq!(both(&weighted(&[1; 17], 12, &[], 1, &[])), 1);
}

/// The first offset is 8 + n + 4m, and 1 is judged before that.
#[test]
fn first_offsets() {
    for offset in 0..=255 {
        let mut bytes = ONE_PEER;
        bytes[10] = offset;
        assert_eq!(alone(&bytes), if offset == 13 { 0 } else { 2 }, "offset {offset}");
        bytes[8] = 5;
        assert_eq!(alone(&bytes), 1, "offset {offset}");
    }
    // Without its weight the table is no longer one: 0 is taken for it.
    assert_eq!(both(&[&ONE_PEER[..8], &ONE_PEER[9..]].concat()), 1);
}

/// 64 votes of 37 bytes and 16 peers: 8 + 16 + 4 · 64 + 64 · 37 is 2,648.
#[test]
fn the_longest() {
    let items: Vec<Vec<u8>> = (0..64).map(|ballot| vote(ballot, &[9; 32])).collect();
    let table = weighted(&[2; 16], 22, &[1], 1, &items);
    assert_eq!((table.len(), both(&table)), (2648, 0));
}

/// Items are the new season's.
#[test]
fn items() {
    let table = |items: &[Vec<u8>]| both(&weighted(&[1, 4], 4, &[1], 1, items));
    assert_eq!(table(&[placed_audit(7, 1), placed_audit(7, 2), cancellation(7)]), 0);
    assert_eq!(table(&[audit(7)]), 3);
    assert_eq!(table(&[placed_audit(7, 1), placed_audit(7, 1)]), 4);
    let read = read_table(&weighted(&[2], 2, &[], 1, &[1, 2].map(|p| placed_audit(7, p)))).unwrap();
    assert!(read.clash(0, 1) && read.clash(1, 0) && !read.clash(0, 0));
}

/// Case R with weights: the report shows the threshold, and numbers of peers.
#[test]
fn rehearsals() {
    let input = rehearsal(&ONE_PEER, &case_r_steps());
    let answers: String = (1..=10).map(|k| format!("{k} 0\n")).collect();
    let held = "db 1 0 0 1\nreceipt 0 0\nboard 0 0\ntotals 1 1 1\nend\n";
    let report = format!("peers 1 threshold 3 honest 1\n{answers}{held}");
    assert_eq!(String::from_utf8(rehearse(&input)).unwrap(), report);
    let sheet = [0, 1, 0, 6, 0, 6, 0, 0, 0, 7, 2, 5];
    assert_eq!(rehearsed_sheet(&[vec![0], input.clone()].concat()), sheet);
    let altered = |at: usize, byte: u8| {
        let mut bytes = input.clone();
        bytes[at] = byte;
        rehearse(&bytes)
    };
    for (at, byte) in [(1, 2), (1, 4), (3, 2), (3, 5), (8, 0), (8, 1), (8, 5)] {
        assert_eq!(altered(at, byte), b"refused 1\n", "byte {at} is {byte}");
    }
    assert_eq!(altered(10, 12), b"refused 2\n");
    assert_eq!(altered(12, 5), b"refused 3\n");
    assert_eq!(rehearse(&input[..8]), b"refused 1\n");
    assert_eq!(rehearse(&input[..9]), b"refused 2\n");
}
