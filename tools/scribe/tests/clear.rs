//! Explanations of a clear and of the steps after it, written by hand from document
//! 02's P11.

mod common;

use common::check_on;
use scribe::explain::{explain_text, Which};

/// Four peers of which 4 is dishonest. No item is signed, so that all boards of the
/// honest peers are empty.
const TABLE: (&str, &str) = (
    "peers 4 threshold 3 honest 1 2 3 periods 2\naudit 7\n",
    "table: 4 peers, honest 1, 2, 3; threshold 3; 2 periods, 1 item",
);

/// What is told of a hash, a backing and a hear: the peer, the period, the entry.
fn hashed(j: usize, q: usize, e: usize) -> String {
    format!("0 done: hash of peer {j}, period {q}, no items: entry {e}")
}

fn backed(j: usize, q: usize, e: usize) -> String {
    let start = format!("0 done: backing of peer {j}, period {q}, no items: entry {e}");
    format!("{start}; peer {j} has backed period {q}")
}

fn heard(j: usize, (signer, q): (usize, usize), e: usize) -> String {
    format!("0 done: peer {j} has heard entry {e}, the hash of peer {signer}, period {q}, no items")
}

fn closed(j: usize, q: usize) -> String {
    let next = if q == 1 { "the last" } else { "and period 1 is open" };
    format!("0 done: peer {j} has closed period {q}, {next}")
}

/// Steps with what is told of them.
type Steps = Vec<(String, String)>;

fn check(steps: &Steps) {
    let steps: Vec<(&str, &str)> =
        steps.iter().map(|(step, told)| (&step[..], &told[..])).collect();
    check_on(TABLE, &steps);
}

fn step(steps: &mut Steps, line: &str, told: &str) {
    steps.push((line.to_string(), told.to_string()));
}

/// Period 0 is closed, hashed by the peers 1, 2 and 3 (entries 0 to 2), and backed by
/// these (entries 3 and on).
fn exchange(backers: &[usize]) -> Steps {
    let mut steps = Steps::new();
    (1..=3).for_each(|j| step(&mut steps, &format!("close {j}"), &closed(j, 0)));
    (1..=3).for_each(|j| step(&mut steps, &format!("hash {j} 0"), &hashed(j, 0, j - 1)));
    for (k, j) in backers.iter().enumerate() {
        for e in 0..3 {
            step(&mut steps, &format!("hear {j} entry {e}"), &heard(*j, (e + 1, 0), e));
        }
        step(&mut steps, &format!("back {j}"), &backed(*j, 0, 3 + k));
    }
    steps
}

/// 5, 6 and 9; the backing of a dishonest peer is no honest peer's, and who is down
/// has yet to back all the same.
#[test]
fn refused() {
    let mut steps = vec![];
    let all = "period 0 has yet to be backed by peer 1 (its c is 0), peer 2 (its c is 0), \
        peer 3 (its c is 0)";
    step(&mut steps, "clear 0", &format!("9 period: {all}"));
    step(&mut steps, "clear 2", "6 name: period 2: the table has periods 0 to 1");
    let form = "5 form: op 19 (clear) needs 0 in the fields that it does not use";
    let raw = "raw 13 01 02 00 03 00 00 00 00 00 00 00 01";
    step(&mut steps, raw, &format!("{form}: peer is 1, other is 2, item is 3, board has item 0"));
    steps.extend(exchange(&[1, 3]));
    let (two, whole) =
        ("9 period: period 0 has yet to be backed by peer 2 (its c is 0)", "period 0, no items");
    step(&mut steps, "clear 0", two);
    let backing = format!("0 done: backing of peer 4, {whole}: entry 5");
    step(&mut steps, "false-backing 4 0 board", &backing);
    step(&mut steps, "publish entry 5", "0 done: board of period 0, no items: entry 6");
    step(&mut steps, "clear 0", two);
    step(&mut steps, "down 2", "0 done: peer 2 is down");
    step(&mut steps, "clear 0", two);
    let next = "9 period: period 1 has yet to be backed by peer 1 (its c is 1), \
        peer 2 (its c is 0), peer 3 (its c is 1)";
    step(&mut steps, "clear 1", next);
    check(&steps);
}

/// The hashes go, whoever signed them and wherever they stand; after that every
/// entry is told by its new number.
#[test]
fn numbers_follow() {
    let mut steps = exchange(&[1, 2, 3]);
    for j in 1..=2 {
        step(&mut steps, &format!("close {j}"), &closed(j, 1));
        step(&mut steps, &format!("hash {j} 1"), &hashed(j, 1, 5 + j));
    }
    step(&mut steps, "hear 1 entry 7", &heard(1, (2, 1), 7));
    step(&mut steps, "post 0", "0 done: item 0 is posted");
    step(&mut steps, "false-hash 4 0 board", &hashed(4, 0, 8));
    let other = "0 done: hash of peer 4, period 0, item 0: entry 9";
    step(&mut steps, "false-hash 4 0 board 0", other);
    step(&mut steps, "false-hash 4 1 board", &hashed(4, 1, 10));
    let removed = "0 done: hashes of period 0 are removed: entry 0 of peer 1, entry 1 of peer 2, \
        entry 2 of peer 3, entries 8 to 9 of peer 4; 6 entries are left, numbered afresh from 0";
    step(&mut steps, "clear 0", removed);
    step(&mut steps, "clear 0", "0 done: nothing new: the bag has no hash of period 0");
    let backing = "10 unknown: entry 0 is no hash but the backing of peer 1, period 0, no items";
    step(&mut steps, "hear 1 entry 0", backing);
    let gone = "10 unknown: there is no entry 7: the bag has entries 0 to 5";
    step(&mut steps, "hear 1 entry 7", gone);
    step(&mut steps, "publish entry 7", gone);
    let hash = "10 unknown: entry 4 is no backing but the hash of peer 2, period 1, no items";
    step(&mut steps, "publish entry 4", hash);
    step(&mut steps, "hear 1 entry 4", "0 done: nothing new");
    let short = "12 short: peer 1 has heard 1 of 3 hashes of its board of period 1: from 2; \
        its board has no items";
    step(&mut steps, "back 1", short);
    step(&mut steps, "hear 1 entry 3", &heard(1, (1, 1), 3));
    let early = "9 period: peer 3 has not closed period 1: its open period is 1; \
        entry 5 is the hash of peer 4, period 1, no items";
    step(&mut steps, "hear 3 entry 5", early);
    step(&mut steps, "hear 1 entry 5", &heard(1, (4, 1), 5));
    step(&mut steps, "back 1", &backed(1, 1, 6));
    let few = "12 short: the board of period 1, no items, has 1 of 3 backings: from 1";
    step(&mut steps, "publish entry 6", few);
    step(&mut steps, "publish entry 2", "0 done: board of period 0, no items: entry 7");
    // A hash that was removed is new where it is sent again.
    step(&mut steps, "hash 3 0", &hashed(3, 0, 8));
    let again = "0 done: hashes of period 0 are removed: entry 8 of peer 3; \
        8 entries are left, numbered afresh from 0";
    step(&mut steps, "clear 0", again);
    check(&steps);
}

/// With no honest peer nobody has yet to back: a bag of hashes is emptied, and one
/// entry that is left is entry 0.
#[test]
fn none_honest() {
    let table = (
        "peers 1 threshold 1 honest periods 1\n",
        "table: 1 peer, honest none; threshold 1; 1 period, 0 items",
    );
    let steps = [
        ("clear 0", "0 done: nothing new: the bag has no hash of period 0"),
        ("false-hash 1 0 board", "0 done: hash of peer 1, period 0, no items: entry 0"),
        (
            "clear 0",
            "0 done: hashes of period 0 are removed: entry 0 of peer 1; the bag is empty now",
        ),
        ("false-hash 1 0 board", "0 done: hash of peer 1, period 0, no items: entry 0"),
        ("false-backing 1 0 board", "0 done: backing of peer 1, period 0, no items: entry 1"),
        (
            "clear 0",
            "0 done: hashes of period 0 are removed: entry 0 of peer 1; \
                1 entry is left, now entry 0",
        ),
        ("publish entry 1", "10 unknown: there is no entry 1: the bag has entry 0 alone"),
        ("publish entry 0", "0 done: board of period 0, no items: entry 1"),
    ];
    check_on(table, &steps);
}

/// Numbers that follow one another are told together only where one peer signed them.
#[test]
fn runs_of_one_signer() {
    let mut lines =
        "peers 2 threshold 2 honest periods 2\naudit 7\naudit 8\npost 0\npost 1\n".to_string();
    for hash in ["1 0 board", "1 0 board 0", "2 0 board", "2 1 board", "2 0 board 0", "1 0 board 1"]
    {
        lines += &format!("false-hash {hash}\n");
    }
    let told = explain_text(&format!("{lines}clear 0\n"), Which::Last).unwrap();
    let expected = "line 12, step 9: clear 0\n    0 done: hashes of period 0 are removed: \
        entries 0 to 1 of peer 1, entry 2 of peer 2, entry 4 of peer 2, entry 5 of peer 1; \
        1 entry is left, now entry 0\n";
    assert_eq!(told, expected);
}

/// The example of docs/STEPS.md: seven entries, of which five are left.
#[test]
fn the_example_of_the_documents() {
    let mut lines = "peers 2 threshold 2 honest 1 2 periods 2\n".to_string();
    for step in [
        "close 1",
        "close 2",
        "hash 1 0",
        "hash 2 0",
        "hear 1 entry 0",
        "hear 1 entry 1",
        "hear 2 entry 0",
        "hear 2 entry 1",
        "back 1",
        "close 1",
        "close 2",
        "hash 1 1",
        "hear 2 entry 3",
        "back 2",
        "publish entry 2",
        "hash 2 1",
    ] {
        lines += &format!("{step}\n");
    }
    let told = explain_text(&lines, Which::All).unwrap();
    assert!(told.ends_with(
        "line 17, step 16: hash 2 1\n    0 done: hash of peer 2, period 1, no items: entry 6\n\
            16 steps: 16 done, 0 refused\n"
    ));
    let last = |step: &str| {
        let told = explain_text(&format!("{lines}clear 0\n{step}\n"), Which::Last).unwrap();
        told.lines().last().unwrap().trim().to_string()
    };
    let entry = |number: usize| last(&format!("hear 1 entry {number}"));
    let no_hash = |number: usize, told: &str| {
        assert_eq!(entry(number), format!("10 unknown: entry {number} is no hash but the {told}"));
    };
    no_hash(0, "backing of peer 1, period 0, no items");
    assert_eq!(entry(1), heard(1, (1, 1), 1));
    no_hash(2, "backing of peer 2, period 0, no items");
    no_hash(3, "board of period 0, no items");
    assert_eq!(entry(4), heard(1, (2, 1), 4));
    assert_eq!(entry(6), "10 unknown: there is no entry 6: the bag has entries 0 to 4");
    assert_eq!(last("hear 2 entry 1"), "0 done: nothing new");
    assert_eq!(last("hear 2 entry 4"), heard(2, (2, 1), 4));
    assert_eq!(last("clear 0"), "0 done: nothing new: the bag has no hash of period 0");
    let waits = "peer 1 (its c is 1), peer 2 (its c is 1)";
    assert_eq!(last("clear 1"), format!("9 period: period 1 has yet to be backed by {waits}"));
}
