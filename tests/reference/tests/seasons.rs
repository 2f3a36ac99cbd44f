//! Tables of the old season and the new, of document 02's P5, their bytes reckoned by
//! hand; `weights` has those with weights.

mod common;

use common::*;
use reference::report::rehearse;
use reference::season::Season;
use reference::sheet::rehearsed_sheet;
use reference::table::{clash, read_front, read_table, Item, Kind};

/// Case R's table in the new season: the first offset is 8 + 4 = 12, the audit is
/// of place 5, and the end is 12 + 6 = 18.
const PLACED: [u8; 18] = [0, 2, 1, 1, 0, 1, 1, 1, 0, 12, 0, 6, 0, 0, 0, 7, 2, 5];

/// A table of the new season without items, in which no two fields are the same.
const NO_ITEMS: [u8; 8] = [0, 2, 12, 10, 0x0D, 0xBF, 6, 0];

/// The bytes of a table of the new season with these items and one peer.
fn placed(items: &[Vec<u8>]) -> Vec<u8> {
    table_bytes_of(Season::New, 1, 1, &[1], 1, items)
}

#[test]
fn fields_behind_the_mark() {
    let table = read_table(&NO_ITEMS).unwrap();
    assert_eq!((table.season, table.n, table.t), (Season::New, 12, 10));
    assert_eq!((table.periods, table.m()), (6, 0));
    assert_eq!(table.honest, [1, 2, 3, 4, 5, 6, 8, 9, 11, 12].into());
    assert_eq!(read_front(&[&NO_ITEMS[..], &[1; 5]].concat()).unwrap().1, 8);
    let table = read_table(&PLACED).unwrap();
    assert_eq!(table.items, [Item { ballot: 7, kind: Kind::PlacedAudit(5) }]);
    assert_eq!(read_front(&[&PLACED[..], &[1; 5]].concat()).unwrap().1, 18);
    assert_eq!(read_table(&CASE_R_TABLE).unwrap().season, Season::Old);
    assert_eq!(placed(&[placed_audit(7, 5)]), PLACED);
}

/// After a 0 only 2 makes the new season, whatever follows. With 3 the weights are not
/// there, or the first is 0.
#[test]
fn second_bytes() {
    for second in 0..=255 {
        let expected = if second == 2 { 0 } else { 1 };
        for mut bytes in [NO_ITEMS.to_vec(), PLACED.to_vec()] {
            bytes[1] = second;
            assert_eq!(both(&bytes), expected, "second byte {second}");
        }
    }
    // The first 0 twice, left out, or both bytes left out: then twelve peers are old.
    assert_eq!(both(&[&[0], &NO_ITEMS[..]].concat()), 1);
    assert_eq!(both(&NO_ITEMS[1..]), 1);
    assert_eq!(both(&NO_ITEMS[2..]), 0);
    assert_eq!(both(&[&[0, 2], &NO_ITEMS[..]].concat()), 1);
    assert_eq!(both(&[&[2, 0], &NO_ITEMS[2..]].concat()), 1);
}

/// Under 8 bytes in all is header, and from there on the pairs are short.
#[test]
fn cut_short() {
    for length in 0..8 {
        assert_eq!(both(&NO_ITEMS[..length]), 1, "{length} bytes");
        assert_eq!(both(&PLACED[..length]), 1, "{length} bytes");
    }
    for length in 8..18 {
        assert_eq!(both(&PLACED[..length]), 2, "{length} bytes");
    }
    assert_eq!((both(&NO_ITEMS), both(&PLACED)), (0, 0));
    assert_eq!(alone(&[&NO_ITEMS[..], &[0]].concat()), 2);
    assert_eq!(alone(&[&PLACED[..], &[0]].concat()), 2);
}

#[test]
fn header_fields() {
    check_thresholds(&[0, 2], &[]);
    for byte in 0..=255 {
        let periods = if (1..=8).contains(&byte) { 0 } else { 1 };
        assert_eq!(both(&[0, 2, 1, 1, 0, 1, byte, 0]), periods, "{byte} periods");
        // Without pairs any number of items is 2, but 0, and above 64 it is 1.
        let items = if byte == 0 { 0 } else { 1 + (byte <= 64) as u8 };
        assert_eq!(both(&[0, 2, 1, 1, 0, 1, 1, byte]), items, "{byte} items");
    }
    assert_eq!(both(&[0, 2, 3, 3, 0, 7, 1, 0]), 0);
    assert_eq!(both(&[0, 2, 3, 3, 0, 8, 1, 0]), 1);
    assert_eq!(both(&[0, 2, 3, 3, 128, 0, 1, 0]), 1);
}

/// The first offset is 8 + 4m in the new season and 6 + 4m in the old.
#[test]
fn first_offsets() {
    for offset in 0..=255 {
        let mut bytes = PLACED;
        bytes[9] = offset;
        assert_eq!(alone(&bytes), if offset == 12 { 0 } else { 2 }, "offset {offset}");
        let mut bytes = CASE_R_TABLE;
        bytes[7] = offset;
        assert_eq!(alone(&bytes), if offset == 10 { 0 } else { 2 }, "offset {offset}");
    }
}

/// 64 votes of 37 bytes: 8 + 4 · 64 + 64 · 37 is 2,632, and 2 less in the old season.
#[test]
fn the_longest() {
    let items: Vec<Vec<u8>> = (0..64).map(|ballot| vote(ballot, &[9; 32])).collect();
    let old = table_bytes(1, 1, &[1], 1, &items);
    assert_eq!((placed(&items).len(), both(&placed(&items))), (2632, 0));
    assert_eq!((old.len(), both(&old)), (2630, 0));
}

/// An audit has 6 bytes in the new season, of any place, and 5 in the old.
#[test]
fn audits() {
    let old = |items: &[Vec<u8>]| both(&table_bytes(1, 1, &[1], 1, items));
    let new = |items: &[Vec<u8>]| both(&placed(items));
    let bare = audit(7);
    for place in 0..=255 {
        assert_eq!(new(&[placed_audit(7, place)]), 0);
        assert_eq!(old(&[placed_audit(7, place)]), 3);
        assert_eq!(new(&[placed_audit(8, place), bare.clone()]), 3);
        assert_eq!(old(&[bare.clone(), placed_audit(8, place)]), 3);
    }
    let [bare, long] = [[bare], [[audit(7), vec![0, 0]].concat()]];
    assert_eq!((old(&bare), new(&bare)), (0, 3));
    assert_eq!((old(&long), new(&long)), (3, 3));
    // Votes and cancellations are as before.
    let others = [vote(7, &[5]), cancellation(7), vote(7, &[5; 32])];
    assert_eq!((old(&others), new(&others)), (0, 0));
    assert_eq!(new(&[[cancellation(7), vec![5]].concat()]), 3);
}

/// Two audits of one ballot and place are the same; 3 is judged before that.
#[test]
fn twins() {
    let new = |items: &[Vec<u8>]| both(&placed(items));
    assert_eq!(new(&[placed_audit(7, 1), placed_audit(7, 1)]), 4);
    assert_eq!(new(&[placed_audit(7, 1), placed_audit(7, 2)]), 0);
    assert_eq!(new(&[placed_audit(7, 1), placed_audit(8, 1)]), 0);
    assert_eq!(new(&[placed_audit(7, 2), vote(7, &[2])]), 0);
    assert_eq!(new(&[placed_audit(7, 1), vote(7, &[1]), placed_audit(7, 1)]), 4);
    assert_eq!(new(&[placed_audit(7, 1), placed_audit(7, 1), audit(7)]), 3);
    let every: Vec<Vec<u8>> = (0..64).map(|place| placed_audit(7, place)).collect();
    assert_eq!(new(&every), 0);
}

#[test]
fn clashes() {
    let item = |ballot, kind| Item { ballot, kind };
    let audit = |place| item(7, Kind::PlacedAudit(place));
    for one in 0..=255 {
        for other in 0..=255 {
            assert_eq!(clash(&audit(one), &audit(other)), one != other, "{one} and {other}");
        }
    }
    let vote = item(7, Kind::Vote(vec![5]));
    let cancellation = item(7, Kind::Cancellation);
    assert!(clash(&vote, &audit(5)) && clash(&audit(5), &vote));
    assert!(!clash(&cancellation, &audit(5)) && !clash(&audit(5), &cancellation));
    // Of another ballot.
    assert!(!clash(&audit(1), &item(8, Kind::PlacedAudit(2))));
    assert!(!clash(&audit(1), &item(8, Kind::Vote(vec![5]))));
}

/// Whole outputs: of case R on the table of the new season, and of tables that are
/// refused.
#[test]
fn rehearsals() {
    let input = rehearsal(&PLACED, &case_r_steps());
    assert_eq!(rehearse(&input), rehearse(&rehearsal(&CASE_R_TABLE, &case_r_steps())));
    assert!(rehearse(&input)
        .ends_with(b"\n10 0\ndb 1 0 0 1\nreceipt 0 0\nboard 0 0\ntotals 1 1 1\nend\n"));
    let sheet = [0, 1, 0, 6, 0, 6, 0, 0, 0, 7, 2, 5];
    assert_eq!(rehearsed_sheet(&[vec![0], input.clone()].concat()), sheet);
    let altered = |at: usize, byte: u8| {
        let mut bytes = input.clone();
        bytes[at] = byte;
        rehearse(&bytes)
    };
    assert_eq!(altered(1, 3), b"refused 1\n");
    assert_eq!(altered(1, 4), b"refused 1\n");
    assert_eq!(altered(0, 1), b"refused 1\n");
    assert_eq!(altered(9, 10), b"refused 2\n");
    assert_eq!(altered(11, 5), b"refused 3\n");
    assert_eq!(rehearse(&placed(&[placed_audit(7, 1), placed_audit(7, 1)])), b"refused 4\n");
    assert_eq!(rehearse(&input[..7]), b"refused 1\n");
    assert_eq!(rehearse(&input[..8]), b"refused 2\n");
}
