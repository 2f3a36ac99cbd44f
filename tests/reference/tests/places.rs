//! Audits from different places, run by hand; and sheets with audits of either
//! length.

mod common;

use common::*;
use reference::form::{write_step, Step};
use reference::ideal::IdealBoard;
use reference::season::Season;
use reference::sheet::{read_sheet, sheet_of_board, write_sheet};
use reference::state::Entry;
use reference::table::{Item, Kind};

/// Audits of ballot 7 from the places 1 and 2 and of ballot 8 from place 1; a vote
/// and a cancellation of ballot 7. One peer, two periods, all posted.
fn posted() -> Run {
    let items = [
        placed_audit(7, 1),
        placed_audit(7, 2),
        placed_audit(8, 1),
        vote(7, &[1]),
        cancellation(7),
    ];
    let mut run = Run::new(&table_bytes_of(Season::New, 1, 1, &[1], 2, &items));
    run.done(&[0, 1, 2, 3, 4].map(|item| Step::Post { item }));
    run
}

fn hand(item: usize) -> Step {
    Step::Hand { peer: 1, item }
}

#[test]
fn the_other_place_is_refused_in_every_period() {
    for (first, other) in [(0, 1), (1, 0)] {
        let mut run = posted();
        run.done(&[hand(first), hand(first), hand(2), hand(4)]);
        assert_eq!((run.call(hand(other)), run.call(hand(3))), (11, 11));
        run.done(&[Step::Close { peer: 1 }]);
        assert_eq!((run.call(hand(other)), run.call(hand(3))), (11, 11));
        run.done(&[hand(first), Step::Sign { peer: 1, item: first }]);
    }
}

#[test]
fn a_vote_beside_an_audit_with_its_place() {
    let mut run = posted();
    run.done(&[hand(3), hand(2), hand(4)]);
    assert_eq!([0, 1].map(|item| run.call(hand(item))), [11, 11]);
}

/// Three items of one ballot, of which no two may be held together: whoever has
/// one of them is refused the others.
#[test]
fn three_places() {
    let items = [0, 128, 255].map(|place| placed_audit(9, place));
    for first in 0..3 {
        let mut run = Run::new(&table_bytes_of(Season::New, 1, 1, &[1], 1, &items));
        run.done(&[0, 1, 2].map(|item| Step::Post { item }));
        run.done(&[hand(first)]);
        for item in 0..3 {
            assert_eq!(run.call(hand(item)), if item == first { 0 } else { 11 });
        }
    }
}

/// The ideal board receives one of two audits, and the other is not allowed.
#[test]
fn the_ideal_board_receives_one() {
    let table = posted().table;
    let mut ideal = IdealBoard::new(&table);
    let mut feed = |step| {
        ideal.feed(&table, &write_step(step), 0, None);
        (ideal.received.clone(), ideal.all_allowed)
    };
    for item in 0..3 {
        feed(Step::Post { item });
    }
    let sign = |item| Step::Sign { peer: 1, item };
    assert_eq!(feed(sign(1)), ([(0, 1)].into(), true));
    assert_eq!(feed(sign(2)), ([(0, 1), (0, 2)].into(), true));
    assert_eq!(feed(sign(0)), ([(0, 1), (0, 2)].into(), false));
}

/// Both sorts of audits side by side: 2 + 4 · 4 is 18, then 18 + 5 = 23, 23 + 6 = 29,
/// 29 + 6 = 35, and the end is 35 + 5 = 40.
const MIXED: [u8; 40] = [
    6, 4, // period, count
    0, 18, 0, 5, 0, 23, 0, 6, 0, 29, 0, 6, 0, 35, 0, 5, // pairs
    0, 0, 0, 7, 2, // an audit without its place
    0, 0, 0, 7, 2, 0, // from place 0
    0, 0, 0, 7, 2, 255, // from place 255
    0, 0, 0, 7, 3, // cancellation
];

#[test]
fn a_sheet_of_mixed_audits() {
    let sheet = read_sheet(&MIXED).unwrap();
    let kinds = [Kind::Audit, Kind::PlacedAudit(0), Kind::PlacedAudit(255), Kind::Cancellation];
    assert_eq!(sheet.items, kinds.map(|kind| Item { ballot: 7, kind }));
    let texts: Vec<Vec<u8>> = sheet.items.iter().map(|item| item.text()).collect();
    assert_eq!(write_sheet(6, &texts), MIXED);
    // The second place made the first: twins.
    let mut twins = MIXED;
    twins[34] = 0;
    assert!(read_sheet(&twins).is_err());
}

/// An audit of 5 or 6 bytes reads, of any place; of 4 or 7 it does not.
#[test]
fn lengths_of_audits_on_sheets() {
    let reads = |item: Vec<u8>| read_sheet(&write_sheet(0, &[cancellation(3), item])).is_ok();
    let lengths =
        [4, 5, 6, 7, 8].map(|length| reads(placed_audit(7, 2).repeat(2)[..length].into()));
    assert_eq!(lengths, [false, true, true, false, false]);
    assert!((0..=255).all(|place| reads(placed_audit(7, place))));
}

/// The board of a table of the new season, items 0, 2 and 3: 2 + 12 is 14, then 20
/// and 26, and the end is 32. It reads as what was written.
#[test]
fn written_from_the_new_season() {
    let mut run = posted();
    run.state.enter(Entry::Board { period: 1, board: [0, 2, 3].into() }).unwrap();
    let sheet = [
        1, 3, 0, 14, 0, 6, 0, 20, 0, 6, 0, 26, 0, 6, // period, count, pairs
        0, 0, 0, 7, 2, 1, 0, 0, 0, 8, 2, 1, 0, 0, 0, 7, 1, 1,
    ];
    assert_eq!(sheet_of_board(&run.table, &run.state, 1, 32).unwrap(), sheet);
    assert!(sheet_of_board(&run.table, &run.state, 1, 31).is_err());
    let read = read_sheet(&sheet).unwrap();
    assert_eq!(read.items, [0, 2, 3].map(|item| run.table.items[item].clone()));
}
