//! What the program `sheet` writes for any bytes: a period, then a rehearsal.

mod common;

use common::*;
use reference::form::Step;
use reference::sheet::rehearsed_sheet;

fn sheet(period: u8, table: &[u8], steps: &[Step]) -> Vec<u8> {
    rehearsed_sheet(&[vec![period], rehearsal(table, steps)].concat())
}

#[test]
fn case_r() {
    let expected = [0, 1, 0, 6, 0, 5, 0, 0, 0, 7, 2];
    assert_eq!(sheet(0, &CASE_R_TABLE, &case_r_steps()), expected);
    // Without the last step there is no board, and the table has one period.
    assert_eq!(sheet(0, &CASE_R_TABLE, &case_r_steps()[..9]), b"refused 10\n");
    assert_eq!(sheet(1, &CASE_R_TABLE, &case_r_steps()), b"refused 6\n");
    assert_eq!(sheet(255, &CASE_R_TABLE, &[]), b"refused 6\n");
    assert_eq!(sheet(0, &CASE_R_TABLE, &[]), b"refused 10\n");
}

/// A short tail is a step that is refused; the board stands.
#[test]
fn a_short_tail() {
    let mut input = [vec![0], rehearsal(&CASE_R_TABLE, &case_r_steps())].concat();
    input.extend([1, 2, 3]);
    assert_eq!(rehearsed_sheet(&input), [0, 1, 0, 6, 0, 5, 0, 0, 0, 7, 2]);
}

/// Two dishonest boards of a period: the one that was published first.
#[test]
fn two_boards() {
    let table = table_bytes(1, 1, &[], 2, &[audit(7), vote(8, &[4])]);
    let back = |period, board| Step::FalseBacking { peer: 1, period, board };
    let publish = |entry| Step::Publish { entry };
    let steps = [
        Step::Post { item: 0 },
        Step::Post { item: 1 },
        back(1, 0b01),
        back(1, 0b11),
        back(0, 0),
        publish(2),
        publish(1),
        publish(0),
    ];
    // 2 + 8 is 10, then 15, then the end at 21.
    let both = [1, 2, 0, 10, 0, 5, 0, 15, 0, 6, 0, 0, 0, 7, 2, 0, 0, 0, 8, 1, 4];
    assert_eq!(sheet(1, &table, &steps), both);
    assert_eq!(sheet(0, &table, &steps), [0, 0]);
    assert_eq!(sheet(2, &table, &steps), b"refused 6\n");
}

/// 1 to 4 come before 6, and no bytes at all are 1.
#[test]
fn tables_that_are_refused() {
    assert_eq!(rehearsed_sheet(&[]), b"refused 1\n");
    for period in [0, 1, 255] {
        assert_eq!(sheet(period, &[], &[]), b"refused 1\n");
        assert_eq!(sheet(period, &table_bytes(3, 2, &[], 1, &[]), &[]), b"refused 1\n");
        assert_eq!(sheet(period, &CASE_R_TABLE[..14], &[]), b"refused 2\n");
        let bad = [vote(7, &[]), audit(8), audit(8)];
        assert_eq!(sheet(period, &table_bytes(1, 1, &[1], 1, &bad), &[]), b"refused 3\n");
        assert_eq!(sheet(period, &table_bytes(1, 1, &[1], 1, &bad[1..]), &[]), b"refused 4\n");
    }
}

/// The period's byte counts: 65,535 bytes of a rehearsal are taken, 65,536 are
/// 15, and that before all.
#[test]
fn input_lengths() {
    let mut input = [vec![0], rehearsal(&CASE_R_TABLE, &case_r_steps())].concat();
    input.resize(65_536, 0);
    assert_eq!(rehearsed_sheet(&input), [0, 1, 0, 6, 0, 5, 0, 0, 0, 7, 2]);
    input.push(0);
    assert_eq!(rehearsed_sheet(&input), b"refused 15\n");
    assert_eq!(rehearsed_sheet(&[0; 65_537]), b"refused 15\n");
    assert_eq!(rehearsed_sheet(&[0; 65_536]), b"refused 1\n");
    input[0] = 9;
    assert_eq!(rehearsed_sheet(&input), b"refused 15\n");
    input.pop();
    assert_eq!(rehearsed_sheet(&input), b"refused 6\n");
}
