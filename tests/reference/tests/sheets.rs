//! The sheet, its bytes reckoned by hand: what is written, what reads, and what
//! is refused in which order.

mod common;

use common::*;
use reference::pairs::Pair;
use reference::sheet::{item_of_sheet, read_sheet, sheet_of_board, write_sheet};
use reference::state::{Board, Entry};
use reference::Refusal;

/// A sheet of period 3 with three items: the audit of ballot 7, its vote 05 06,
/// and the cancellation of ballot 0x01020304. 2 + 4 · 3 is 14, and 14 + 5 + 7 + 5
/// is 31.
const THREE: [u8; 31] = [
    3, 3, // period, count
    0, 14, 0, 5, 0, 19, 0, 7, 0, 26, 0, 5, // pairs
    0, 0, 0, 7, 2, 0, 0, 0, 7, 1, 5, 6, 1, 2, 3, 4, 3, // texts
];

/// One peer, eight periods; the items of `THREE` are 0, 2 and 3.
fn one_peer() -> Run {
    let items = [audit(7), audit(8), vote(7, &[5, 6]), cancellation(0x01020304)];
    Run::new(&table_bytes(1, 1, &[1], 8, &items))
}

/// The run with these boards in its bag.
fn with_boards(mut run: Run, boards: &[(usize, &[usize])]) -> Run {
    for (period, items) in boards {
        let board = items.iter().copied().collect();
        run.state.enter(Entry::Board { period: *period, board }).unwrap();
    }
    run
}

impl Run {
    /// The sheet of a period's board, or the number of its refusal.
    fn sheet(&self, period: usize, room: usize) -> Result<Vec<u8>, u8> {
        sheet_of_board(&self.table, &self.state, period, room).map_err(Refusal::number)
    }
}

/// The number of the bytes as a sheet; 0 if they read. What reads is the only
/// sheet of its period and items.
fn number(bytes: &[u8]) -> u8 {
    match read_sheet(bytes) {
        Err(refusal) => refusal.number(),
        Ok(sheet) => {
            let texts: Vec<Vec<u8>> = sheet.items.iter().map(|item| item.text()).collect();
            assert_eq!(write_sheet(sheet.period as u8, &texts), bytes);
            let parts = sheet.pairs.iter().map(|pair| pair.text(bytes));
            assert!(parts.eq(&texts));
            0
        }
    }
}

#[test]
fn written_in_table_order() {
    let run = with_boards(one_peer(), &[(3, &[3, 0, 2])]);
    assert_eq!(run.sheet(3, 31).unwrap(), THREE);
    assert_eq!(run.sheet(3, usize::MAX).unwrap(), THREE);
    assert_eq!(number(&THREE), 0);
}

#[test]
fn a_board_without_items_is_two_bytes() {
    let run = with_boards(one_peer(), &[(7, &[])]);
    assert_eq!(run.sheet(7, 2).unwrap(), [7, 0]);
    assert_eq!(run.sheet(7, 1), Err(16));
    assert_eq!(number(&[7, 0]), 0);
}

/// Of two boards of a period the first in the bag, whatever stands around it.
#[test]
fn the_first_board_of_the_period() {
    let mut run = one_peer();
    let board: Board = [1].into();
    run.state.bag.push(Entry::Hash { signer: 1, period: 3, board: board.clone() });
    run.state.bag.push(Entry::Backing { signer: 1, period: 3, board });
    let boards: [(usize, &[usize]); 4] = [(2, &[1]), (3, &[0, 2, 3]), (3, &[1]), (2, &[])];
    let run = with_boards(run, &boards);
    assert_eq!(run.sheet(3, 31).unwrap(), THREE);
    // 2 + 4 is 6, and 6 + 5 is 11.
    assert_eq!(run.sheet(2, 11).unwrap(), [2, 1, 0, 6, 0, 5, 0, 0, 0, 8, 2]);
}

/// 64 votes of 37 bytes: the first offset is 2 + 4 · 64 = 258 and the end is
/// 258 + 64 · 37 = 2,626.
#[test]
fn the_longest() {
    let items: Vec<Vec<u8>> = (0..64u32).map(|ballot| vote(ballot, &[9; 32])).collect();
    let run = Run::new(&table_bytes(1, 1, &[1], 1, &items));
    let run = with_boards(run, &[(0, &(0..64).collect::<Vec<usize>>())]);
    let sheet = run.sheet(0, 2626).unwrap();
    assert_eq!((sheet.len(), run.sheet(0, 2625)), (2626, Err(16)));
    assert_eq!(sheet[..10], [0, 64, 1, 2, 0, 37, 1, 39, 0, 37]);
    // The last pair is at 2 + 4 · 63 = 254, and its offset 258 + 63 · 37 = 2,589.
    assert_eq!(sheet[254..258], [10, 29, 0, 37]);
    assert_eq!(sheet[258..264], [0, 0, 0, 0, 1, 9]);
    assert_eq!(sheet[2589..2595], [0, 0, 0, 63, 1, 9]);
    assert_eq!(number(&sheet), 0);
}

/// 6 for a period that the table does not have, 10 for one without a board, and
/// 16 last.
#[test]
fn the_order_of_the_writer() {
    let run = Run::new(&table_bytes(1, 1, &[1], 4, &[audit(7)]));
    let run = with_boards(run, &[(3, &[0])]);
    for room in [0, 10, 11, usize::MAX] {
        for period in [4, 7, 8, 255] {
            assert_eq!(run.sheet(period, room), Err(6));
        }
        for period in 0..3 {
            assert_eq!(run.sheet(period, room), Err(10));
        }
    }
    for room in 0..11 {
        assert_eq!(run.sheet(3, room), Err(16));
    }
    assert_eq!(run.sheet(3, 11).unwrap(), [3, 1, 0, 6, 0, 5, 0, 0, 0, 7, 2]);
}

#[test]
fn where_items_stand() {
    let place = |bytes, item| item_of_sheet(bytes, item).map_err(Refusal::number);
    assert_eq!(place(&THREE, 0), Ok(Pair { offset: 14, length: 5 }));
    assert_eq!(place(&THREE, 1), Ok(Pair { offset: 19, length: 7 }));
    assert_eq!(place(&THREE, 2), Ok(Pair { offset: 26, length: 5 }));
    for item in 3..=255 {
        assert_eq!(place(&THREE, item), Err(6));
    }
    assert_eq!(place(&[0, 0], 0), Err(6));
    // 16 comes before 6, and without it.
    assert_eq!([0, 3, 255].map(|item| place(&THREE[..30], item)), [Err(16); 3]);
}

/// Every byte of `THREE` with every other value. Period, ballot numbers and
/// preferences may be others, and the kind of an audit or a cancellation the
/// other of these two; count and pairs may not.
#[test]
fn every_byte_altered() {
    let mut read = 0;
    for at in 0..THREE.len() {
        for byte in 0..=255 {
            let mut bytes = THREE;
            bytes[at] = byte;
            let reads = match at {
                0 => byte < 8,
                18 | 30 => byte == 2 || byte == 3,
                14..=17 | 19..=22 | 24..=29 => true,
                _ => byte == THREE[at],
            };
            assert_eq!(number(&bytes), if reads { 0 } else { 16 }, "byte {at}: {byte}");
            read += reads as usize;
        }
    }
    // The period; two kinds; 4 + 4 + 2 + 4 bytes of any value; the 14 others.
    assert_eq!(read, 8 + 2 * 2 + 14 * 256 + 14);
}

#[test]
fn cut_short_or_with_a_tail() {
    for length in 0..THREE.len() {
        assert_eq!(number(&THREE[..length]), 16, "{length} bytes");
    }
    for tail in [&[0][..], &[0, 0, 0, 9, 2], &THREE] {
        assert_eq!(number(&[&THREE[..], tail].concat()), 16);
        assert_eq!(number(&[&[0, 0], tail].concat()), 16);
    }
}

/// Every count, with and without items for it.
#[test]
fn counts() {
    let texts: Vec<Vec<u8>> = (0..255).map(audit).collect();
    for count in 0..=255 {
        let expected = if count <= 64 { 0 } else { 16 };
        assert_eq!(number(&write_sheet(7, &texts[..count])), expected, "count {count}");
        let other = [&[0, count as u8], &write_sheet(0, &texts[..5])[2..]].concat();
        assert_eq!(number(&other), if count == 5 { 0 } else { 16 }, "count {count}");
    }
}

/// A sheet of one audit in which the first offset is not 6.
#[test]
fn first_offset() {
    // The table's first offset, 6 + 4, with room for it or not.
    assert_eq!(number(&[0, 1, 0, 10, 0, 5, 0, 0, 0, 7, 2]), 16);
    assert_eq!(number(&[0, 1, 0, 10, 0, 5, 0, 0, 0, 0, 0, 0, 0, 7, 2]), 16);
    // Into the pair, and none at all.
    assert_eq!(number(&[0, 1, 0, 5, 0, 6, 0, 0, 0, 7, 2]), 16);
    assert_eq!(number(&[0, 1, 0, 0, 0, 11, 0, 0, 0, 7, 2]), 16);
    assert_eq!(number(&[0, 1, 0, 6, 0, 5, 0, 0, 0, 7, 2]), 0);
}

/// Two audits: 2 + 8 is 10, then 15, then the end at 20.
#[test]
fn pairs_that_do_not_meet() {
    let pairs = |pairs: [u8; 8], texts: &[u8]| number(&[&[0, 2], &pairs[..], texts].concat());
    let texts = [0, 0, 0, 7, 2, 0, 0, 0, 8, 2];
    assert_eq!(pairs([0, 10, 0, 5, 0, 15, 0, 5], &texts), 0);
    // A gap, an overlap, the same place twice, and the second first.
    let gap = [0, 0, 0, 7, 2, 9, 0, 0, 0, 8, 2];
    assert_eq!(pairs([0, 10, 0, 5, 0, 16, 0, 5], &gap), 16);
    let overlap = [0, 0, 0, 0, 2, 0, 0, 8, 2];
    assert_eq!(pairs([0, 10, 0, 5, 0, 14, 0, 5], &overlap), 16);
    assert_eq!(pairs([0, 10, 0, 5, 0, 10, 0, 5], &texts[..5]), 16);
    assert_eq!(pairs([0, 15, 0, 5, 0, 10, 0, 5], &texts), 16);
    // Sums do not wrap: 10 + 65,535 is 65,545, and not 9.
    assert_eq!(pairs([0, 10, 255, 255, 0, 9, 0, 11], &texts), 16);
    // High bytes count.
    assert_eq!(pairs([1, 10, 0, 5, 0, 15, 0, 5], &texts), 16);
    assert_eq!(pairs([0, 10, 0, 5, 0, 15, 1, 5], &texts), 16);
}

#[test]
fn items() {
    for length in 0..=40 {
        for kind in 0..=5 {
            let mut text = vec![0; length];
            text.get_mut(4).into_iter().for_each(|byte| *byte = kind);
            let good = match kind {
                1 => (6..=37).contains(&length),
                2 => length == 5 || length == 6,
                3 => length == 5,
                _ => false,
            };
            let [alone, behind] =
                [vec![text.clone()], vec![audit(9), text]].map(|texts| write_sheet(0, &texts));
            let expected = if good { 0 } else { 16 };
            assert_eq!(number(&alone), expected, "kind {kind}, length {length}");
            assert_eq!(number(&behind), expected, "kind {kind}, length {length}");
        }
    }
}

/// Two items the same; neither clashes nor the order of items are judged.
#[test]
fn twins() {
    let sheet = |texts: &[Vec<u8>]| number(&write_sheet(0, texts));
    assert_eq!(sheet(&[vote(7, &[1]), audit(7), vote(7, &[1])]), 16);
    assert_eq!(sheet(&[audit(7), audit(7)]), 16);
    assert_eq!(sheet(&[vote(7, &[1]), vote(7, &[1, 0]), vote(7, &[2]), vote(8, &[1])]), 0);
    assert_eq!(sheet(&[cancellation(9), audit(8), vote(8, &[1]), audit(7)]), 0);
    let mut many: Vec<Vec<u8>> = (0..64).map(audit).collect();
    assert_eq!(sheet(&many), 0);
    many[63] = many[0].clone();
    assert_eq!(sheet(&many), 16);
}
