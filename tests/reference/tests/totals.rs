//! The totals at the report's foot, reckoned by hand after each step.

mod common;

use common::*;
use reference::form::Step;
use reference::report::rehearse;

/// A step, its answer, and the totals after it.
type Told = (Step, u8, [usize; 3]);

/// Four peers, t = 3, of which only peer 1 is honest; two periods, four items.
fn table() -> Vec<u8> {
    table_bytes(4, 3, &[1], 2, &[vote(7, &[0]), vote(7, &[1]), audit(8), cancellation(9)])
}

/// After each step the report of the steps so far has its answer, and at the foot
/// the totals, once.
fn check(told: &[Told]) {
    for k in 1..=told.len() {
        let steps: Vec<Step> = told[..k].iter().map(|(step, _, _)| *step).collect();
        let report = String::from_utf8(rehearse(&rehearsal(&table(), &steps))).unwrap();
        let (step, answer, [posts, receipts, items]) = told[k - 1];
        assert!(report.contains(&format!("\n{k} {answer}\n")), "{step:?}: {report}");
        let foot = format!("\ntotals {posts} {receipts} {items}\nend\n");
        assert!(report.ends_with(&foot), "{step:?}: {report}");
        assert_eq!(report.matches("totals").count(), 1, "{step:?}: {report}");
    }
}

/// Different items: a post again, a refused one and a hand add none.
#[test]
fn posts() {
    check(&[
        (Step::Post { item: 2 }, 0, [1, 0, 0]),
        (Step::Post { item: 2 }, 0, [1, 0, 0]),
        (Step::Post { item: 4 }, 6, [1, 0, 0]),
        (Step::Post { item: 0 }, 0, [2, 0, 0]),
        (Step::Hand { peer: 1, item: 0 }, 0, [2, 0, 0]),
        (Step::Hand { peer: 1, item: 3 }, 10, [2, 0, 0]),
        (Step::Post { item: 1 }, 0, [3, 0, 0]),
        (Step::Post { item: 0 }, 0, [3, 0, 0]),
    ]);
}

/// Different periods and items: shares are none, nor is a receipt that was
/// refused for two of three shares or for its names, or that is there.
#[test]
fn receipts() {
    let share = |peer, period, item| Step::FalseShare { peer, period, item };
    let receipt = |period, item| Step::Receipt { period, item };
    check(&[
        (Step::Post { item: 0 }, 0, [1, 0, 0]),
        (Step::Post { item: 1 }, 0, [2, 0, 0]),
        (share(2, 0, 0), 0, [2, 0, 0]),
        (share(3, 0, 0), 0, [2, 0, 0]),
        (receipt(0, 0), 12, [2, 0, 0]),
        (share(4, 0, 0), 0, [2, 0, 0]),
        (receipt(0, 0), 0, [2, 1, 0]),
        (receipt(0, 0), 0, [2, 1, 0]),
        (receipt(1, 0), 12, [2, 1, 0]),
        (receipt(2, 0), 6, [2, 1, 0]),
        // The same item in the other period, then another item.
        (share(2, 1, 0), 0, [2, 1, 0]),
        (share(3, 1, 0), 0, [2, 1, 0]),
        (share(4, 1, 0), 0, [2, 1, 0]),
        (receipt(1, 0), 0, [2, 2, 0]),
        (share(2, 1, 1), 0, [2, 2, 0]),
        (share(3, 1, 1), 0, [2, 2, 0]),
        (share(4, 1, 1), 0, [2, 2, 0]),
        (receipt(1, 1), 0, [2, 3, 0]),
        (receipt(1, 0), 0, [2, 3, 0]),
    ]);
}

/// Items over different boards. The boards 0 2 and 1 2 of period 0 both count,
/// item 2 on each of them; 0 2 of period 1 is one more. A board that comes again,
/// by the same backing or by another of it, counts once.
#[test]
fn boards() {
    let back = |peer, period, board| Step::FalseBacking { peer, period, board };
    let publish = |entry| Step::Publish { entry };
    check(&[
        (Step::Post { item: 0 }, 0, [1, 0, 0]),
        (Step::Post { item: 1 }, 0, [2, 0, 0]),
        (Step::Post { item: 2 }, 0, [3, 0, 0]),
        (back(2, 0, 0b101), 0, [3, 0, 0]), // entry 0
        (back(3, 0, 0b101), 0, [3, 0, 0]), // entry 1
        (publish(0), 12, [3, 0, 0]),
        (back(4, 0, 0b101), 0, [3, 0, 0]), // entry 2
        (publish(0), 0, [3, 0, 2]),        // entry 3: 2 items
        (publish(0), 0, [3, 0, 2]),
        (publish(1), 0, [3, 0, 2]),
        (publish(3), 10, [3, 0, 2]),
        (back(2, 0, 0b110), 0, [3, 0, 2]), // entry 4
        (back(3, 0, 0b110), 0, [3, 0, 2]), // entry 5
        (back(4, 0, 0b110), 0, [3, 0, 2]), // entry 6
        (publish(5), 0, [3, 0, 4]),        // entry 7: 2 + 2
        (back(2, 1, 0b101), 0, [3, 0, 4]), // entry 8
        (back(3, 1, 0b101), 0, [3, 0, 4]), // entry 9
        (back(4, 1, 0b101), 0, [3, 0, 4]), // entry 10
        (publish(8), 0, [3, 0, 6]),        // entry 11: 2 + 2 + 2
        (back(2, 1, 0), 0, [3, 0, 6]),     // entry 12
        (back(3, 1, 0), 0, [3, 0, 6]),     // entry 13
        (back(4, 1, 0), 0, [3, 0, 6]),     // entry 14
        (publish(14), 0, [3, 0, 6]),       // entry 15: a board without items
        (publish(6), 0, [3, 0, 6]),
    ]);
}

/// All three side by side. Posted: items 0, 2 and 3. Receipts: item 0 in both
/// periods, which is two. Boards: 0 2 3 and 2 of period 0, which is 3 + 1.
#[test]
fn all_three() {
    let mut steps: Vec<Step> = [0, 2, 3, 2, 4].map(|item| Step::Post { item }).into();
    for period in [0, 1] {
        steps.extend([2, 3, 4].map(|peer| Step::FalseShare { peer, period, item: 0 }));
        steps.extend([Step::Receipt { period, item: 0 }, Step::Receipt { period, item: 0 }]);
    }
    steps.push(Step::Receipt { period: 0, item: 2 });
    for board in [0b1101, 0b0100] {
        steps.extend([2, 3, 4].map(|peer| Step::FalseBacking { peer, period: 0, board }));
    }
    steps.extend([0, 1, 3, 0].map(|entry| Step::Publish { entry }));
    let report = String::from_utf8(rehearse(&rehearsal(&table(), &steps))).unwrap();
    let is_refused =
        |line: &&str| line.starts_with(|c: char| c.is_ascii_digit()) && !line.ends_with(" 0");
    assert_eq!(report.lines().filter(is_refused).collect::<Vec<&str>>(), ["5 6", "16 12"]);
    let tail = "\n26 0\nreceipt 0 0\nreceipt 1 0\nboard 0 0 2 3\nboard 0 2\ntotals 3 2 4\nend\n";
    assert!(report.ends_with(tail), "{report}");
}
