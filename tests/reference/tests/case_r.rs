//! Case R of document 01, and the rest of the report's layout.

mod common;

use common::*;
use reference::form::Step;
use reference::report::rehearse;

const CASE_R_OUTPUT: &str = "peers 1 threshold 1 honest 1 / 1 0 / 2 0 / 3 0 / 4 0 / 5 0 / 6 0 / \
    7 0 / 8 0 / 9 0 / 10 0 / db 1 0 0 1 / receipt 0 0 / board 0 0 / totals 1 1 1 / end";

fn output(input: &[u8]) -> String {
    String::from_utf8(rehearse(input)).unwrap()
}

#[test]
fn case_r_exactly() {
    let expected = CASE_R_OUTPUT.replace(" / ", "\n") + "\n";
    assert_eq!(output(&rehearsal(&CASE_R_TABLE, &case_r_steps())), expected);
}

#[test]
fn a_table_and_no_steps() {
    assert_eq!(output(&CASE_R_TABLE), "peers 1 threshold 1 honest 1\ntotals 0 0 0\nend\n");
    let empty = table_bytes(3, 3, &[], 1, &[]);
    assert_eq!(output(&empty), "peers 3 threshold 3 honest 0\ntotals 0 0 0\nend\n");
}

#[test]
fn a_short_tail_is_one_step_answered_5() {
    let mut input = rehearsal(&CASE_R_TABLE, &[Step::Post { item: 0 }]);
    input.push(1);
    let expected = "peers 1 threshold 1 honest 1\n1 0\n2 5\ntotals 1 0 0\nend\n";
    assert_eq!(output(&input), expected);
}

#[test]
fn a_refused_table_prints_its_number_only() {
    assert_eq!(output(&[]), "refused 1\n");
    assert_eq!(output(&table_bytes(3, 2, &[], 1, &[])), "refused 1\n");
    assert_eq!(output(&CASE_R_TABLE[..14]), "refused 2\n");
    assert_eq!(output(&table_bytes(1, 1, &[1], 1, &[vote(7, &[])])), "refused 3\n");
    assert_eq!(output(&table_bytes(1, 1, &[1], 1, &[audit(7), audit(7)])), "refused 4\n");
}

#[test]
fn over_65536_bytes_is_15_before_all() {
    let mut input = table_bytes(1, 1, &[1], 1, &[]);
    input.resize(65_536, 0);
    let lines = output(&input);
    // 6 bytes of table leave 5040 whole steps and a tail of 10 bytes.
    assert!(lines.ends_with("5041 5\ntotals 0 0 0\nend\n"));
    input.push(0);
    assert_eq!(output(&input), "refused 15\n");
    assert_eq!(output(&vec![0; 65_537]), "refused 15\n");
    assert_eq!(output(&vec![0; 65_536]), "refused 1\n");
}

#[test]
fn an_empty_board_shows_its_period_only() {
    let table = table_bytes(1, 1, &[1], 2, &[audit(7)]);
    let steps = [
        Step::Close { peer: 1 },
        Step::Hash { peer: 1, period: 0 },
        Step::Hear { peer: 1, entry: 0 },
        Step::Back { peer: 1 },
        Step::Publish { entry: 1 },
    ];
    let lines = output(&rehearsal(&table, &steps));
    assert!(lines.ends_with("5 0\nboard 0\ntotals 0 0 0\nend\n"), "{lines}");
}

/// Lines rise in the fields shown; boards come in bag order.
#[test]
fn the_order_of_lines() {
    let items = [vote(1, &[0]), vote(2, &[0]), vote(3, &[0])];
    let table = table_bytes(1, 1, &[], 2, &items);
    let false_backing = |period, board| Step::FalseBacking { peer: 1, period, board };
    let steps = [
        Step::Post { item: 2 },
        Step::Post { item: 0 },
        Step::FalseShare { peer: 1, period: 1, item: 0 },
        Step::FalseShare { peer: 1, period: 0, item: 2 },
        Step::FalseShare { peer: 1, period: 0, item: 0 },
        Step::Receipt { period: 1, item: 0 },
        Step::Receipt { period: 0, item: 2 },
        Step::Receipt { period: 0, item: 0 },
        false_backing(1, 0b101),
        false_backing(0, 0b100),
        false_backing(0, 0),
        Step::Publish { entry: 0 },
        Step::Publish { entry: 2 },
        Step::Publish { entry: 1 },
    ];
    let lines = output(&rehearsal(&table, &steps));
    // Items 0 and 2 are posted; the boards have two items, none and one.
    let tail = "receipt 0 0\nreceipt 0 2\nreceipt 1 0\nboard 1 0 2\nboard 0\nboard 0 2\n\
        totals 2 3 3\nend\n";
    assert!(lines.starts_with("peers 1 threshold 1 honest 0\n1 0\n"), "{lines}");
    assert!(lines.ends_with(tail), "{lines}");
}
