//! Number 17, of document 02's P6: no receipt share for an item that the peer gave
//! one for in an earlier period. `Run::call` also checks that a refused call alters
//! nothing.

mod common;

use common::*;
use reference::form::Step;
use reference::report::rehearse;
use reference::season::{Season, SEASONS};

const PERIODS: usize = 4;

/// Four peers of which these are honest, t = 3, four periods; three items of which
/// no two clash, all posted.
fn posted(season: Season, honest: &[usize]) -> Run {
    let items = [vote(7, &[1]), cancellation(7), vote(8, &[1])];
    let mut run = Run::new(&table_bytes_of(season, 4, 3, honest, PERIODS as u8, &items));
    run.done(&[0, 1, 2].map(|item| Step::Post { item }));
    run
}

/// The same, peer 4 dishonest.
fn with_one_liar() -> Run {
    posted(Season::Old, &[1, 2, 3])
}

fn share(peer: usize) -> Step {
    Step::Share { peer, item: 0 }
}

/// Peer 4's signature, and each honest peer's, for its open period; and each honest
/// peer takes them all.
fn gather(run: &mut Run, period: usize, item: usize) {
    for peer in 1..=3 {
        run.done(&[Step::Hand { peer, item }, Step::Sign { peer, item }]);
    }
    run.done(&[Step::FalseSignature { peer: 4, period, item }]);
    for peer in 1..=3 {
        run.done(&[1, 2, 3, 4].map(|other| Step::Take { peer, other, period, item }));
    }
}

fn close(run: &mut Run) {
    run.done(&[1, 2, 3].map(|peer| Step::Close { peer }));
}

/// The answers of the honest peers to a share of item 0.
fn shares(run: &mut Run) -> [u8; 3] {
    [1, 2, 3].map(|peer| run.call(share(peer)))
}

/// On the second day the slip is posted, held, signed and taken again; no share is
/// given, and so there is no second receipt.
#[test]
fn the_slip_posted_on_two_days() {
    for season in SEASONS {
        let mut run = posted(season, &[1, 2, 3]);
        gather(&mut run, 0, 0);
        assert_eq!(shares(&mut run), [0, 0, 0]);
        let given = run.state.clone();
        assert_eq!(shares(&mut run), [0, 0, 0]);
        assert_eq!(run.state, given);
        close(&mut run);
        run.done(&[Step::Post { item: 0 }]);
        gather(&mut run, 1, 0);
        assert_eq!([1, 2, 3].map(|peer| run.state.peer(peer).signers(1, 0).len()), [4, 4, 4]);
        assert_eq!(shares(&mut run), [17, 17, 17]);
        assert_eq!(run.call(Step::Receipt { period: 1, item: 0 }), 12);
        // The late receipt of the first day.
        run.done(&[Step::Receipt { period: 0, item: 0 }]);
        assert_eq!(run.state.receipts, [(0, 0)].into());
    }
}

/// One peer alone, as a rehearsal; the report by hand.
#[test]
fn on_the_report() {
    let steps = [
        Step::Post { item: 0 },
        Step::Hand { peer: 1, item: 0 },
        Step::Sign { peer: 1, item: 0 },
        share(1),
        Step::Receipt { period: 0, item: 0 },
        Step::Close { peer: 1 },
        share(1),
        Step::Hand { peer: 1, item: 0 },
        Step::Sign { peer: 1, item: 0 },
        share(1),
        Step::Receipt { period: 1, item: 0 },
    ];
    let answers = "1 0\n2 0\n3 0\n4 0\n5 0\n6 0\n7 17\n8 0\n9 0\n10 17\n11 12\n";
    let held = "db 1 0 0 1\ndb 1 1 0 1\nreceipt 0 0\ntotals 1 1 0\nend\n";
    let report = format!("peers 1 threshold 1 honest 1\n{answers}{held}");
    let table = table_bytes(1, 1, &[1], 2, &[audit(7)]);
    assert_eq!(String::from_utf8(rehearse(&rehearsal(&table, &steps))).unwrap(), report);
}

/// 6, 7, 8 and 9 are judged before it, and 12 after it: it comes though there are no
/// signers.
#[test]
fn order_of_given() {
    let mut run = with_one_liar();
    gather(&mut run, 0, 0);
    run.done(&[share(1), Step::FalseShare { peer: 4, period: 0, item: 0 }]);
    close(&mut run);
    assert_eq!(run.call(Step::Share { peer: 1, item: 3 }), 6);
    assert_eq!(run.call(share(4)), 7);
    run.done(&[Step::Down { peer: 1 }]);
    assert_eq!(run.call(share(1)), 8);
    run.done(&[Step::Up { peer: 1 }]);
    assert_eq!(run.state.peer(1).signers(1, 0), [].into());
    assert_eq!(shares(&mut run), [17, 12, 12]);
    for _ in 1..PERIODS {
        close(&mut run);
    }
    assert_eq!(run.state.peer(1).p, PERIODS);
    assert_eq!(shares(&mut run), [9, 9, 9]);
}

/// The first period counts like every other, and one that is long past.
#[test]
fn in_every_later_period() {
    for first in 0..PERIODS {
        let mut run = with_one_liar();
        for period in 0..PERIODS {
            // Nobody has signed before the first.
            let answer = if period < first { 12 } else { 17 };
            if period == first {
                gather(&mut run, period, 0);
                assert_eq!(run.call(share(1)), 0);
            } else {
                assert_eq!(run.call(share(1)), answer, "shared in {first}, now {period}");
            }
            close(&mut run);
        }
    }
}

/// Neither another peer's shares bar a peer, nor its own for another item, nor that
/// the item has a receipt.
#[test]
fn others_do_not_bar() {
    let mut run = with_one_liar();
    gather(&mut run, 0, 0);
    gather(&mut run, 0, 1);
    run.done(&[share(1), share(2), Step::FalseShare { peer: 4, period: 0, item: 0 }]);
    run.done(&[Step::Receipt { period: 0, item: 0 }, Step::Share { peer: 3, item: 1 }]);
    close(&mut run);
    gather(&mut run, 1, 0);
    gather(&mut run, 1, 2);
    assert_eq!(shares(&mut run), [17, 17, 0]);
    assert_eq!([1, 2, 3].map(|peer| run.call(Step::Share { peer, item: 2 })), [0, 0, 0]);
    assert_eq!(run.call(Step::Share { peer: 3, item: 1 }), 17);
}

/// A lent state may have a share of a later period: that is no earlier one, until
/// its period is past.
#[test]
fn a_later_period_does_not_bar() {
    let mut run = with_one_liar();
    run.state.shares.insert((1, 2, 0));
    assert_eq!(run.call(share(1)), 12);
    close(&mut run);
    gather(&mut run, 1, 0);
    run.state.shares.insert((2, 2, 0));
    assert_eq!(run.call(share(2)), 0);
    close(&mut run);
    // The open one: what is there already. Peer 2 has one of period 1 as well.
    gather(&mut run, 2, 0);
    assert_eq!(shares(&mut run), [0, 17, 0]);
    close(&mut run);
    assert_eq!(shares(&mut run), [17, 17, 17]);
}

/// In a state where every share is outside that can be, no other step is refused so.
#[test]
fn for_no_other_step() {
    let mut run = with_one_liar();
    gather(&mut run, 0, 0);
    close(&mut run);
    for period in 0..PERIODS {
        for item in 0..3 {
            run.state.shares.extend([1, 2, 3, 4].map(|peer| (peer, period, item)));
        }
    }
    let lent = run.state.clone();
    let mut times = [0; 20];
    for fields in 0..5 * 5 * PERIODS * 3 {
        let [peer, other] = [fields % 5, fields / 5 % 5].map(|peer| peer as u8);
        let [period, item] = [fields / 25 % PERIODS, fields / 25 / PERIODS].map(|at| at as u8);
        for op in 1..=19 {
            run.state = lent.clone();
            let answer = run.call_bytes(&[op, peer, other, period, item, 0, 0, 0, 0, 0, 0, 0, 0]);
            times[op as usize] += (answer == 17) as usize;
        }
    }
    // Three peers and three items.
    assert_eq!((times[5], times.iter().sum::<usize>()), (9, 9));
    run.state = lent;
    run.done(&[0, 1, 2, 3].map(|period| Step::FalseShare { peer: 4, period, item: 0 }));
    run.done(&[0, 1, 2, 3].map(|period| Step::Receipt { period, item: 0 }));
}

/// With fewer than t honest peers an item can have two receipts, though each honest
/// peer gives one share for it.
#[test]
fn two_receipts_with_too_few_honest_peers() {
    let mut run = posted(Season::Old, &[1, 2]);
    for (peer, period) in [(1, 0), (2, 1)] {
        while run.state.peer(peer).p < period {
            run.done(&[Step::Close { peer }]);
        }
        run.done(&[Step::Hand { peer, item: 0 }, Step::Sign { peer, item: 0 }]);
        for other in [3, 4] {
            run.done(&[Step::FalseSignature { peer: other, period, item: 0 }]);
            run.done(&[Step::Take { peer, other, period, item: 0 }]);
            run.done(&[Step::FalseShare { peer: other, period, item: 0 }]);
        }
        run.done(&[share(peer), Step::Receipt { period, item: 0 }]);
    }
    assert_eq!(run.state.receipts, [(0, 0), (1, 0)].into());
    let honest = run.state.shares.iter().filter(|share| share.0 <= 2);
    assert_eq!(honest.copied().collect::<Vec<_>>(), [(1, 0, 0), (2, 1, 0)]);
}
