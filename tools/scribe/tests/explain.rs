//! Explanations written by hand, from document 01.

mod common;

use common::check_on;
use scribe::explain::{explain_bytes, explain_text, is_text, Which};
use scribe::{bytes, text};

/// Four peers of which 4 is dishonest; items 0 and 1 clash, and so do 1 and 2.
const TABLE: &str = "peers 4 threshold 3 honest 1 2 3 periods 2\n\
    vote 7 00\nvote 7 01\naudit 7\ncancel 7\n";

/// Each step with what is told of it. The first step stands on line 6.
fn check(steps: &[(&str, &str)]) {
    let told = "table: 4 peers, honest 1, 2, 3; threshold 3; 2 periods, 4 items";
    check_on((TABLE, told), steps);
}

#[test]
fn from_the_post_to_the_receipt() {
    check(&[
        ("hand 1 0", "10 unknown: item 0 is not posted"),
        ("post 0", "0 done: item 0 is posted"),
        ("post 0", "0 done: nothing new"),
        ("post 1", "0 done: item 1 is posted"),
        ("sign 1 0", "10 unknown: peer 1 does not hold item 0; its open period is 0"),
        ("hand 1 0", "0 done: peer 1 holds item 0 in period 0"),
        (
            "hand 1 1",
            "11 clash: item 1 (vote on ballot 7) clashes with what peer 1 holds: \
                item 0 (vote on ballot 7) in period 0",
        ),
        (
            "sign 1 0",
            "0 done: signature of peer 1 on item 0 in period 0; \
                peer 1 has 1 of 3 signers on item 0 in period 0: 1 (new 1)",
        ),
        ("take 2 3 0 0", "10 unknown: peer 3 has not signed item 0 in period 0: it is signed by 1"),
        ("take 2 3 0 1", "10 unknown: peer 3 has not signed item 1 in period 0, nor has any other"),
        ("take 2 1 0 0", "0 done: peer 2 has 1 of 3 signers on item 0 in period 0: 1 (new 1)"),
        ("take 2 1 1 0", "9 period: period 1 is beyond period 0, the open one of peer 2"),
        ("share 2 0", "12 short: peer 2 has 1 of 3 signers on item 0 in its open period 0: 1"),
        ("share 2 1", "12 short: peer 2 has 0 of 3 signers on item 1 in its open period 0"),
        ("false-signature 4 0 0", "0 done: signature of peer 4 on item 0 in period 0"),
        ("take 2 4 0 0", "0 done: peer 2 has 2 of 3 signers on item 0 in period 0: 1, 4 (new 4)"),
        ("hand 2 0", "0 done: peer 2 holds item 0 in period 0"),
        (
            "sign 2 0",
            "0 done: signature of peer 2 on item 0 in period 0; \
                peer 2 has 3 of 3 signers on item 0 in period 0: 1, 2, 4 (new 2)",
        ),
        ("share 2 0", "0 done: receipt share of peer 2 on item 0 in period 0, 1 of 3"),
        ("false-share 4 0 0", "0 done: receipt share of peer 4 on item 0 in period 0, 2 of 3"),
        ("receipt 0 0", "12 short: item 0 has 2 of 3 receipt shares in period 0: from 2, 4"),
        ("receipt 1 0", "12 short: item 0 has 0 of 3 receipt shares in period 1"),
        ("close 2", "0 done: peer 2 has closed period 0, and period 1 is open"),
        (
            "share 2 0",
            "17 given: peer 2 gave its receipt share for item 0 in period 0; \
                its open period is 1",
        ),
        ("close 1", "0 done: peer 1 has closed period 0, and period 1 is open"),
        (
            "share 1 0",
            "12 short: peer 1 has 0 of 3 signers on item 0 in its open period 1; \
                in period 0 it has 1",
        ),
        ("sign 2 0", "10 unknown: peer 2 does not hold item 0 in its open period 1, but in 0"),
        (
            "hand 2 1",
            "11 clash: item 1 (vote on ballot 7) clashes with what peer 2 holds: \
                item 0 (vote on ballot 7) in period 0",
        ),
        ("close 2", "0 done: peer 2 has closed period 1, the last"),
        ("close 2", "9 period: peer 2 has no open period: it has closed its last, period 1"),
    ]);
}

#[test]
fn from_the_close_to_the_board() {
    check(&[
        ("post 3", "0 done: item 3 is posted"),
        ("false-signature 4 0 3", "0 done: signature of peer 4 on item 3 in period 0"),
        ("take 1 4 0 3", "0 done: peer 1 has 1 of 3 signers on item 3 in period 0: 4 (new 4)"),
        ("hash 1 0", "9 period: peer 1 has not closed period 0: its open period is 0"),
        ("back 1", "9 period: peer 1 has not closed period 0"),
        ("close 1", "0 done: peer 1 has closed period 0, and period 1 is open"),
        ("fetch 1 3 0", "9 period: peer 3 has not closed period 0: its open period is 0"),
        ("close 3", "0 done: peer 3 has closed period 0, and period 1 is open"),
        ("fetch 3 1 0", "0 done: peer 3 has 1 of 3 signers on item 3 in period 0: 4 (new 4)"),
        ("fetch 3 1 0", "0 done: nothing new"),
        ("hear 1 entry 0", "10 unknown: there is no entry 0: the bag is empty"),
        ("hash 1 0", "0 done: hash of peer 1, period 0, no items: entry 0"),
        ("hash 1 0", "0 done: nothing new"),
        ("hear 1 entry 1", "10 unknown: there is no entry 1: the bag has entry 0 alone"),
        (
            "hear 1 entry 0",
            "0 done: peer 1 has heard entry 0, the hash of peer 1, period 0, no items",
        ),
        ("false-hash 4 0 board 3", "0 done: hash of peer 4, period 0, item 3: entry 1"),
        ("false-hash 4 0 board", "0 done: hash of peer 4, period 0, no items: entry 2"),
        (
            "hear 1 entry 1",
            "0 done: peer 1 has heard entry 1, the hash of peer 4, period 0, item 3",
        ),
        (
            "back 1",
            "12 short: peer 1 has heard 1 of 3 hashes of its board of period 0: from 1; \
                of other boards from 4; its board has no items",
        ),
        (
            "hear 2 entry 1",
            "9 period: peer 2 has not closed period 0: its open period is 0; \
                entry 1 is the hash of peer 4, period 0, item 3",
        ),
        (
            "hear 1 entry 2",
            "0 done: peer 1 has heard entry 2, the hash of peer 4, period 0, no items",
        ),
        ("hash 3 0", "0 done: hash of peer 3, period 0, no items: entry 3"),
        (
            "hear 1 entry 3",
            "0 done: peer 1 has heard entry 3, the hash of peer 3, period 0, no items",
        ),
        (
            "back 1",
            "0 done: backing of peer 1, period 0, no items: entry 4; peer 1 has backed period 0",
        ),
        ("back 1", "9 period: peer 1 has backed period 0, and has not closed period 1"),
        ("publish entry 9", "10 unknown: there is no entry 9: the bag has entries 0 to 4"),
        (
            "publish entry 1",
            "10 unknown: entry 1 is no backing but the hash of peer 4, period 0, item 3",
        ),
        (
            "publish entry 4",
            "12 short: the board of period 0, no items, has 1 of 3 backings: from 1",
        ),
        ("false-backing 4 0 board", "0 done: backing of peer 4, period 0, no items: entry 5"),
        ("false-backing 4 0 board 1 2", "10 unknown: items 1 2 are not posted"),
        (
            "publish entry 5",
            "12 short: the board of period 0, no items, has 2 of 3 backings: from 1, 4",
        ),
    ]);
}

/// A peer that gave its share for an item gives none in any later period, with
/// a quorum or without. It holds and signs the item again all the same.
#[test]
fn shares_given_in_an_earlier_period() {
    let table = "peers 1 threshold 1 honest 1 periods 3\naudit 7\naudit 8\n";
    let told = "table: 1 peer, honest 1; threshold 1; 3 periods, 2 items";
    let given = "17 given: peer 1 gave its receipt share for item 0 in period 0";
    let (on_1, on_2) =
        (format!("{given}; its open period is 1"), format!("{given}; its open period is 2"));
    let steps = [
        ("post 0", "0 done: item 0 is posted"),
        ("hand 1 0", "0 done: peer 1 holds item 0 in period 0"),
        (
            "sign 1 0",
            "0 done: signature of peer 1 on item 0 in period 0; \
                peer 1 has 1 of 1 signers on item 0 in period 0: 1 (new 1)",
        ),
        ("share 1 0", "0 done: receipt share of peer 1 on item 0 in period 0, 1 of 1"),
        ("share 1 0", "0 done: nothing new"),
        ("close 1", "0 done: peer 1 has closed period 0, and period 1 is open"),
        ("share 1 0", &on_1),
        ("share 1 1", "12 short: peer 1 has 0 of 1 signers on item 1 in its open period 1"),
        ("hand 1 0", "0 done: peer 1 holds item 0 in period 1"),
        (
            "sign 1 0",
            "0 done: signature of peer 1 on item 0 in period 1; \
                peer 1 has 1 of 1 signers on item 0 in period 1: 1 (new 1)",
        ),
        ("share 1 0", &on_1),
        ("receipt 1 0", "12 short: item 0 has 0 of 1 receipt shares in period 1"),
        ("receipt 0 0", "0 done: receipt for item 0 in period 0"),
        ("close 1", "0 done: peer 1 has closed period 1, and period 2 is open"),
        ("share 1 0", &on_2),
        ("close 1", "0 done: peer 1 has closed period 2, the last"),
        ("share 1 0", "9 period: peer 1 has no open period: it has closed its last, period 2"),
    ];
    check_on((table, told), &steps);
}

#[test]
fn forms_names_roles_and_outages() {
    check(&[
        (
            "hand 0 4",
            "6 name: peer 0: the table has peers 1 to 4; item 4: the table has items 0 to 3",
        ),
        (
            "fetch 1 9 2",
            "6 name: the other peer 9: the table has peers 1 to 4; \
                period 2: the table has periods 0 to 1",
        ),
        ("false-hash 4 0 board 4", "6 name: item 4 of the board: the table has items 0 to 3"),
        ("sign 4 0", "7 role: peer 4 is dishonest, but an honest peer is needed"),
        ("fetch 1 4 0", "7 role: peer 4 is dishonest, but an honest peer is needed"),
        ("false-share 2 0 0", "7 role: peer 2 is honest, but a dishonest peer is needed"),
        ("down 2", "0 done: peer 2 is down"),
        ("down 2", "0 done: nothing new"),
        ("close 2", "8 down: peer 2 is down"),
        ("fetch 1 2 0", "8 down: peer 2 is down"),
        ("up 2", "0 done: peer 2 is up"),
        ("raw 14 00 00 00 00 00 00 00 00 00 00 00 00", "5 form: op 20, but the ops are 1 to 19"),
        (
            "raw 07 01 02 00 03 00 00 00 00 00 00 00 05",
            "5 form: op 7 (close) needs 0 in the fields that it does not use: \
                other is 2, item is 3, board has items 0 2",
        ),
        ("raw 01 00", "5 form: 2 bytes, but a step has 13"),
    ]);
}

/// Audits of one ballot clash if their places differ, and a vote clashes with
/// each; a cancellation clashes with none.
#[test]
fn audits_from_two_places() {
    let table = "season 2\npeers 4 threshold 3 honest 1 2 3 periods 2\n\
        audit 7 place 2\naudit 7 place 255\nvote 7 01\ncancel 7\naudit 8 place 255\n";
    let told = "table of season 2: 4 peers, honest 1, 2, 3; threshold 3; 2 periods, 5 items";
    let held = "what peer 1 holds: item 0 (audit of ballot 7 from place 2) in period 0";
    let audit = format!("11 clash: item 1 (audit of ballot 7 from place 255) clashes with {held}");
    let vote = format!("11 clash: item 2 (vote on ballot 7) clashes with {held}");
    let steps = [
        ("post 0", "0 done: item 0 is posted"),
        ("post 1", "0 done: item 1 is posted"),
        ("post 2", "0 done: item 2 is posted"),
        ("post 3", "0 done: item 3 is posted"),
        ("post 4", "0 done: item 4 is posted"),
        ("hand 1 0", "0 done: peer 1 holds item 0 in period 0"),
        ("hand 1 1", &audit),
        ("hand 1 2", &vote),
        ("hand 1 3", "0 done: peer 1 holds item 3 in period 0"),
        ("hand 1 4", "0 done: peer 1 holds item 4 in period 0"),
        ("hand 2 1", "0 done: peer 2 holds item 1 in period 0"),
        ("close 1", "0 done: peer 1 has closed period 0, and period 1 is open"),
        ("hand 1 1", &audit),
        ("hand 1 0", "0 done: peer 1 holds item 0 in period 1"),
    ];
    check_on((table, told), &steps);
}

/// 256 different false hashes of one period, and then one more.
#[test]
fn a_full_bag() {
    let mut lines = "peers 1 threshold 1 honest periods 2\n".to_string();
    (0..9).for_each(|item| lines += &format!("audit {item}\n"));
    (0..9).for_each(|item| lines += &format!("post {item}\n"));
    for board in 0..256 {
        let items = (0..9).filter(|i| board >> i & 1 == 1).map(|i| format!(" {i}"));
        lines += &format!("false-hash 1 0 board{}\n", items.collect::<String>());
    }
    lines += "false-hash 1 0 board 0\nfalse-hash 1 1 board 0 8\n";
    let told = explain_text(&lines, Which::Last).unwrap();
    let expected = "line 277, step 267: false-hash 1 1 board 0 8\n    \
        13 full: the bag is full with 256 entries, \
        and the hash of peer 1, period 1, items 0 8, is not among them\n";
    assert_eq!(told, expected);
    let told = explain_text(&lines, Which::Refused).unwrap();
    assert_eq!(told, format!("{expected}267 steps: 266 done, 1 refused\n"));
}

/// Text and bytes of one rehearsal tell the same, but for the lines.
#[test]
fn text_and_bytes() {
    let lines = format!("{TABLE}post 0 # a comment\nhand 1   0\nhand 4 0\n");
    let input = bytes(&lines).unwrap();
    assert!(is_text(lines.as_bytes()) && !is_text(&input) && !is_text(b""));
    let from_bytes = explain_bytes(&input, Which::All);
    let from_text = explain_text(&lines, Which::All).unwrap();
    let mut without_lines = from_text.clone();
    (6..9).for_each(|k| without_lines = without_lines.replace(&format!("line {k}, "), ""));
    assert_eq!(without_lines, from_bytes);
    assert!(from_text.contains("line 6, step 1: post 0\n"));
    assert!(from_text.contains("line 7, step 2: hand 1 0\n"));
    assert!(from_text.ends_with("3 steps: 2 done, 1 refused\n"));
    assert_eq!(explain_text(&text(&input).unwrap(), Which::All).unwrap(), from_text);
    let none = "table: 1 peer, honest none; threshold 1; 1 period, 0 items\n\
        0 steps: 0 done, 0 refused\n";
    assert_eq!(explain_bytes(&[1, 1, 0, 0, 1, 0], Which::All), none);
    assert_eq!(explain_bytes(&[1, 1, 0, 0, 1, 0], Which::Last), "");
}
