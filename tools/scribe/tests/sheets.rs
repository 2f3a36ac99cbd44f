//! Sheets as text, written by hand from document 02's P2; and what is no sheet,
//! with the reason.

use inputs::random::{run_seed, Random};
use inputs::tables::random_table;
use reference::sheet::{read_sheet, write_sheet};
use reference::table::read_table;
use scribe::{sheet, text};

/// Period 5 and three items: 2 + 4 · 3 is 14, then 21 and 26, and the end is 31.
const THREE: [u8; 31] = [
    5, 3, // period, count
    0, 14, 0, 7, 0, 21, 0, 5, 0, 26, 0, 5, // pairs
    0, 0, 0, 7, 1, 2, 1, // vote
    0, 0, 1, 44, 2, // audit
    0, 0, 0, 8, 3, // cancellation
];

/// The example with some bytes changed.
fn altered(changes: &[(usize, u8)]) -> Vec<u8> {
    let mut bytes = THREE.to_vec();
    for (at, byte) in changes {
        bytes[*at] = *byte;
    }
    bytes
}

#[test]
fn every_kind_of_item() {
    assert_eq!(sheet(&THREE).unwrap(), "period 5\nvote 7 02 01\naudit 300\ncancel 8\n");
    let largest = [7, 1, 0, 6, 0, 6, 255, 255, 255, 255, 1, 255];
    assert_eq!(sheet(&largest).unwrap(), "period 7\nvote 4294967295 FF\n");
}

/// Audits of both lengths on one sheet: a place is any byte, and two audits of
/// one ballot are twins only if their places are the same.
#[test]
fn audits_of_either_length() {
    let mut bytes = vec![
        2, 4, // period, count
        0, 18, 0, 6, 0, 24, 0, 5, 0, 29, 0, 6, 0, 35, 0, 6, // pairs
        0, 0, 0, 7, 2, 5, // from place 5
        0, 0, 0, 7, 2, // from none
        0, 0, 0, 7, 2, 0, // from place 0
        0, 0, 0, 8, 2, 255, // from place 255
    ];
    let lines = "period 2\naudit 7 place 5\naudit 7\naudit 7 place 0\naudit 8 place 255\n";
    assert_eq!(sheet(&bytes).unwrap(), lines);
    assert!(agree(&bytes));
    bytes[34] = 5;
    assert_eq!(sheet(&bytes).unwrap_err(), "no sheet: items 0 and 2 are the same");
    assert!(!agree(&bytes));
}

#[test]
fn no_items() {
    for period in 0..8 {
        assert_eq!(sheet(&[period, 0]).unwrap(), format!("period {period}\n"));
    }
}

/// 64 votes of 32 preferences: 2 + 4 · 64 + 64 · 37 is 2,626.
#[test]
fn the_longest() {
    let votes: Vec<Vec<u8>> =
        (0..64).map(|k| [vec![0, 0, 0, k, 1], vec![k; 32]].concat()).collect();
    let bytes = write_sheet(0, &votes);
    assert_eq!(bytes.len(), 2626);
    let lines = sheet(&bytes).unwrap();
    let last = format!("vote 63{}", " 3F".repeat(32));
    assert_eq!((lines.lines().count(), lines.lines().last()), (65, Some(&last[..])));
}

/// Neither clashes nor the order of items are judged: without the table nobody
/// could tell the order.
#[test]
fn clashes_in_any_order() {
    let items = [vec![0, 0, 0, 9, 2], vec![0, 0, 0, 7, 1, 2], vec![0, 0, 0, 7, 1, 1]];
    let lines = sheet(&write_sheet(0, &items)).unwrap();
    assert_eq!(lines, "period 0\naudit 9\nvote 7 02\nvote 7 01\n");
}

#[test]
fn what_is_no_sheet() {
    let longer = |more: &[u8]| [&THREE[..], more].concat();
    let kinds = "not 1 (vote), 2 (audit) or 3 (cancellation)";
    for (bytes, fact) in [
        (vec![], "0 bytes, but a sheet has at least 2: period and count"),
        (vec![5], "1 byte, but a sheet has at least 2: period and count"),
        (vec![8], "period 8, but periods are 0 to 7"),
        (altered(&[(0, 8)]), "period 8, but periods are 0 to 7"),
        (altered(&[(0, 255), (1, 65)]), "period 255, but periods are 0 to 7"),
        (altered(&[(1, 65)]), "65 items, but a sheet has at most 64"),
        (altered(&[(1, 64)]), "the pairs of 64 items end at byte 258, but the sheet at byte 31"),
        (THREE[..13].to_vec(), "the pairs of 3 items end at byte 14, but the sheet at byte 13"),
        (vec![0, 1, 0], "the pairs of 1 item end at byte 6, but the sheet at byte 3"),
        (altered(&[(3, 18)]), "item 0 has offset 18, but the pairs end at byte 14"),
        (altered(&[(7, 22)]), "item 1 has offset 22, but item 0 ends at byte 21"),
        (altered(&[(8, 1)]), "item 2 has offset 26, but item 1 ends at byte 282"),
        (THREE[..30].to_vec(), "item 2 ends at byte 31, but the sheet at byte 30"),
        (longer(&[0]), "1 byte after the last item"),
        (longer(&[0, 0, 9]), "3 bytes after the last item"),
        (vec![5, 0, 0, 14], "2 bytes after a count of 0"),
        (altered(&[(30, 4)]), &format!("item 2 has kind 4, {kinds}")),
        (altered(&[(25, 0)]), &format!("item 1 has kind 0, {kinds}")),
        (altered(&[(25, 1)]), "item 1 is a vote with 0 bytes of preferences, not 1 to 32"),
        (
            altered(&[(18, 2)]),
            "item 0 is an audit with 2 bytes after its kind, but it has none, or 1, its place",
        ),
        (altered(&[(18, 3)]), "item 0 is a cancellation with 2 bytes after its kind, not none"),
        (
            write_sheet(0, &[vec![0, 0, 7]]),
            "item 0 has 3 bytes, but an item has at least 5: ballot number and kind",
        ),
        (
            write_sheet(0, &[[vec![0, 0, 0, 7, 1], vec![0; 33]].concat()]),
            "item 0 is a vote with 33 bytes of preferences, not 1 to 32",
        ),
        (
            write_sheet(0, &[vec![0, 0, 0, 7, 2], vec![0, 0, 0, 8, 2], vec![0, 0, 0, 7, 2]]),
            "items 0 and 2 are the same",
        ),
        (b"refused 10\n".to_vec(), "it says \"refused 10\""),
    ] {
        assert_eq!(sheet(&bytes), Err(format!("no sheet: {fact}")), "{bytes:?}");
        assert!(read_sheet(&bytes).is_err(), "the independent engine reads {bytes:?}");
    }
}

/// What the independent engine reads is a sheet here, and nothing else.
fn agree(bytes: &[u8]) -> bool {
    let lines = sheet(bytes);
    assert_eq!(lines.is_ok(), read_sheet(bytes).is_ok(), "{bytes:?}: {lines:?}");
    lines.is_ok()
}

#[test]
fn every_byte_altered() {
    let mut read = 0;
    for at in 0..THREE.len() {
        assert!(!agree(&THREE[..at]));
        read += (0..=255).filter(|byte| agree(&altered(&[(at, *byte)]))).count();
    }
    // The period; the kinds of audit and cancellation; 4 + 2 + 4 + 4 bytes of any
    // value; the 14 others.
    assert_eq!(read, 8 + 2 * 2 + 14 * 256 + 14);
}

/// The items of a random table, all on one sheet, have the lines that they have
/// in the table's text; and with a byte or two altered, both agree.
#[test]
fn items_of_random_tables() {
    let (seed, mut read) = (run_seed(), 0);
    for number in 0..2000 {
        let mut random = Random::new(seed, number);
        let table = random_table(&mut random, 16);
        let items = read_table(&table).expect("a table").items;
        let texts: Vec<Vec<u8>> = items.iter().map(|item| item.text()).collect();
        let mut bytes = write_sheet(random.below(8) as u8, &texts);
        let (lines, table) = (sheet(&bytes).unwrap(), text(&table).unwrap());
        let items = table.lines().skip(table.lines().count() - texts.len());
        assert!(lines.lines().skip(1).eq(items), "seed {seed}, number {number}");
        for _ in 0..random.between(1, 2) {
            let at = random.below(bytes.len());
            bytes[at] = [random.bits() as u8, random.below(4) as u8][random.below(2)];
        }
        read += agree(&bytes) as usize;
    }
    assert!((200..1800).contains(&read), "{read}");
}
