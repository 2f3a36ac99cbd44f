//! The cases explained: the answers that their texts say after `#`, and some of
//! them in full, written by hand.

use scribe::explain::{explain_bytes, explain_text, Which};
use std::fs;
use std::path::{Path, PathBuf};

fn folder() -> PathBuf {
    Path::new(env!("CARGO_MANIFEST_DIR")).join("../../cases")
}

fn case(name: &str) -> String {
    fs::read_to_string(folder().join(name).with_extension("txt")).expect("a case")
}

/// The number of a step's answer that its comment says; 0 if it says none.
fn said(line: &str) -> u32 {
    let comment = line.split_once('#').map_or("", |(_, comment)| comment.trim_start());
    let digits: String = comment.chars().take_while(char::is_ascii_digit).collect();
    digits.parse().unwrap_or(0)
}

#[test]
fn answers_as_the_cases_say() {
    let (mut steps, mut refusals) = (0, 0);
    for file in fs::read_dir(folder()).expect("the folder of cases") {
        let path = file.expect("a file").path();
        if path.extension().is_none_or(|end| end != "txt") {
            continue;
        }
        let text = fs::read_to_string(&path).expect("a case");
        let lines: Vec<&str> = text.lines().collect();
        let explanation = explain_text(&text, Which::All).expect("a case that can be read");
        let told: Vec<&str> = explanation.lines().collect();
        for pair in told.windows(2).filter(|pair| pair[0].contains(", step ")) {
            let number: usize =
                pair[0]["line ".len()..].split_once(',').unwrap().0.parse().unwrap();
            let answer: u32 = pair[1].trim().split_once(' ').unwrap().0.parse().unwrap();
            assert_eq!(answer, said(lines[number - 1]), "{}: {}", path.display(), pair[0]);
            steps += 1;
            refusals += (answer != 0) as usize;
        }
    }
    assert!(steps > 700 && refusals > 60, "{steps} steps, {refusals} refused");
}

#[test]
fn the_period_that_was_left() {
    let told = explain_text(&case("left-period"), Which::Refused).unwrap();
    let expected = "\
line 34, step 8: take 3 1 0 0
    8 down: peer 3 is down
line 35, step 9: take 3 4 0 0
    8 down: peer 3 is down
line 62, step 34: back 1
    12 short: peer 1 has heard 1 of 3 hashes of its board of period 0: from 1; of other boards \
from 2, 3, 4; its board has item 0
line 68, step 38: share 3 0
    12 short: peer 3 has 0 of 3 signers on item 0 in its open period 1; in period 0 it has 1, 3, 4
line 69, step 39: receipt 0 0
    12 short: item 0 has 2 of 3 receipt shares in period 0: from 1, 4
42 steps: 37 done, 5 refused
";
    assert_eq!(told, expected);
}

#[test]
fn the_slip_on_two_days() {
    let told = explain_text(&case("slip-on-two-days"), Which::Refused).unwrap();
    let expected = "\
line 40, step 16: share 3 0
    8 down: peer 3 is down
line 67, step 39: share 1 0
    17 given: peer 1 gave its receipt share for item 0 in period 0; its open period is 1
line 75, step 47: share 3 0
    12 short: peer 3 has 1 of 3 signers on item 0 in its open period 1: 3; in period 0 it has \
1, 2, 3
line 82, step 54: share 1 0
    17 given: peer 1 gave its receipt share for item 0 in period 0; its open period is 1
line 83, step 55: share 2 0
    17 given: peer 2 gave its receipt share for item 0 in period 0; its open period is 1
line 86, step 58: receipt 1 0
    12 short: item 0 has 2 of 3 receipt shares in period 1: from 3, 4
line 130, step 96: share 1 0
    17 given: peer 1 gave its receipt share for item 0 in period 0; its open period is 2
line 131, step 97: share 3 0
    17 given: peer 3 gave its receipt share for item 0 in period 1; its open period is 2
line 132, step 98: share 1 1
    17 given: peer 1 gave its receipt share for item 1 in period 1; its open period is 2
line 133, step 99: receipt 2 0
    12 short: item 0 has 0 of 3 receipt shares in period 2
line 135, step 101: share 1 0
    9 period: peer 1 has no open period: it has closed its last, period 2
101 steps: 90 done, 11 refused
";
    assert_eq!(told, expected);
}

#[test]
fn weights_that_carry() {
    let told = explain_text(&case("weights-carry"), Which::Refused).unwrap();
    let expected = "\
line 31, step 6: share 1 0
    12 short: peer 1 has signers on item 0 in its open period 0 that weigh 4 of 5: 1
line 36, step 11: receipt 0 0
    12 short: item 0 has receipt shares in period 0 that weigh 4 of 5: from 1
line 51, step 24: share 2 1
    12 short: peer 2 has signers on item 1 in its open period 0 that weigh 3 of 5: 2, 3, 4
line 52, step 25: share 3 1
    12 short: peer 3 has signers on item 1 in its open period 0 that weigh 3 of 5: 2, 3, 4
line 53, step 26: receipt 0 1
    12 short: item 1 has no receipt shares in period 0, and t is 5
line 69, step 39: back 2
    12 short: peer 2 has heard hashes of its board of period 0 that weigh 3 of 5: from 2, 3, 4; \
its board has item 0
line 74, step 42: back 1
    12 short: peer 1 has heard hashes of its board of period 0 that weigh 4 of 5: from 1; \
its board has item 0
line 77, step 45: publish entry 4
    12 short: the board of period 0, item 0, has backings that weigh 4 of 5: from 1
line 83, step 49: share 2 0
    17 given: peer 2 gave its receipt share for item 0 in period 0; its open period is 1
49 steps: 40 done, 9 refused
";
    assert_eq!(told, expected);
}

#[test]
fn the_clear_that_came_too_early() {
    let told = explain_text(&case("clear-too-early"), Which::Refused).unwrap();
    let expected = "\
line 25, step 8: clear 0
    9 period: period 0 has yet to be backed by peer 1 (its c is 0), peer 2 (its c is 0), \
peer 3 (its c is 0)
line 48, step 27: publish entry 3
    12 short: the board of period 0, item 0, has 2 of 3 backings: from 1, 2
line 51, step 30: clear 0
    9 period: period 0 has yet to be backed by peer 3 (its c is 0)
line 53, step 32: clear 0
    9 period: period 0 has yet to be backed by peer 3 (its c is 0)
line 61, step 38: clear 1
    9 period: period 1 has yet to be backed by peer 1 (its c is 1), peer 2 (its c is 1), \
peer 3 (its c is 1)
line 62, step 39: clear 2
    6 name: period 2: the table has periods 0 to 1
line 64, step 41: hear 3 entry 0
    10 unknown: entry 0 is no hash but the backing of peer 1, period 0, item 0
43 steps: 36 done, 7 refused
";
    assert_eq!(told, expected);
}

/// What the case says of its steps without the clears: the bag stays full, and nobody
/// can back period 1, also with the hashes heard by the numbers that they have then.
#[test]
fn the_bag_that_is_not_cleared() {
    let text = case("cleared-bag");
    let (before, after) = text.split_once("# Room again").unwrap();
    let kept = |part: &str| -> String {
        part.lines()
            .filter(|line| !line.starts_with("clear"))
            .map(|line| format!("{line}\n"))
            .collect()
    };
    let mut heard = kept(after);
    for (new, old) in [(4, 7), (5, 8), (6, 9)] {
        for peer in [2, 3] {
            let [from, to] = [new, old].map(|entry| format!("hear {peer} entry {entry}\n"));
            assert!(heard.contains(&from));
            heard = heard.replace(&from, &to);
        }
    }
    for (steps, full) in [(kept(after), [true, false, false]), (heard, [true; 3])] {
        let uncleared = kept(before) + "# " + &steps;
        let told = explain_text(&uncleared, Which::All).unwrap();
        let told: Vec<&str> = told.lines().collect();
        for peer in [1, 2, 3] {
            let last =
                told.iter().rposition(|line| line.ends_with(&format!(": back {peer}"))).unwrap();
            assert_eq!(
                told[last + 1].starts_with("    13 full: "),
                full[peer - 1],
                "{}",
                told[last]
            );
        }
        assert!(!told.iter().any(|line| line.contains("board of period 1, no items: entry")));
    }
    let cleared = explain_text(&text, Which::All).unwrap();
    assert!(cleared.contains("board of period 1, no items: entry 10\n"));
}

#[test]
fn tables_that_are_refused() {
    for (name, expected) in [
        (
            "threshold-too-low",
            "line 7: peers 3 threshold 2 honest 1 2 periods 1\n    \
                refused 1 header: threshold 2, but with 3 peers it must be 3\n",
        ),
        (
            "bare-audit",
            "line 10: audit 8\n    \
                refused 3 item: item 1 is an audit with 0 bytes after its kind, \
                but in season 2 it has 1, its place\n",
        ),
        (
            "weight-of-5",
            "line 9: weights 5 1 1 1\n    \
                refused 1 header: weight 5 of peer 1, but weights are 1 to 4\n",
        ),
    ] {
        assert_eq!(explain_text(&case(name), Which::All).unwrap(), expected);
    }
}

#[test]
fn case_r() {
    let bytes = fs::read(folder().join("case-r.bin")).expect("a case");
    let expected = "\
table: 1 peer, honest 1; threshold 1; 1 period, 1 item
step 1: post 0
    0 done: item 0 is posted
step 2: hand 1 0
    0 done: peer 1 holds item 0 in period 0
step 3: sign 1 0
    0 done: signature of peer 1 on item 0 in period 0; peer 1 has 1 of 1 signers on item 0 in \
period 0: 1 (new 1)
step 4: share 1 0
    0 done: receipt share of peer 1 on item 0 in period 0, 1 of 1
step 5: receipt 0 0
    0 done: receipt for item 0 in period 0
step 6: close 1
    0 done: peer 1 has closed period 0, the last
step 7: hash 1 0
    0 done: hash of peer 1, period 0, item 0: entry 0
step 8: hear 1 entry 0
    0 done: peer 1 has heard entry 0, the hash of peer 1, period 0, item 0
step 9: back 1
    0 done: backing of peer 1, period 0, item 0: entry 1; peer 1 has backed period 0
step 10: publish entry 1
    0 done: board of period 0, item 0: entry 2
10 steps: 10 done, 0 refused
";
    assert_eq!(explain_bytes(&bytes, Which::All), expected);
}
