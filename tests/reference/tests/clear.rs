//! Op 19, clear, of document 02's P11: its refusals in their order and at their edges,
//! which entries go, and what becomes of the numbers. `Run::call` also checks that a
//! refused call alters nothing.

mod common;

use common::*;
use reference::form::{write_step, Step};
use reference::ideal::IdealBoard;
use reference::state::{Entry, BAG_SIZE};

const CLEAR: Step = Step::Clear { period: 0 };

/// Period 0 is backed by peers 1, 2 and 3: entries 0, 1, 2 are its hashes, entries
/// 3, 4, 5 its backings. Item 0 is posted.
fn backed_by_three() -> Run {
    let mut run = hashed_by_three();
    for peer in 1..=3 {
        run.done(&[0, 1, 2].map(|entry| Step::Hear { peer, entry }));
    }
    run.done(&[1, 2, 3].map(|peer| Step::Back { peer }));
    run
}

/// The numbers of the hash entries of a period.
fn hashes(run: &Run, period: usize) -> Vec<usize> {
    let is_hash = |entry: &Entry| matches!(entry, Entry::Hash { period: q, .. } if *q == period);
    (0..run.state.bag.len()).filter(|entry| is_hash(&run.state.bag[*entry])).collect()
}

fn heard(run: &Run, peer: usize) -> Vec<usize> {
    run.state.peer(peer).heard.iter().copied().collect()
}

/// 5, 6, 9 in this order: each step has the faults of those after it too.
#[test]
fn refusals_in_their_order() {
    let mut run = four_peers();
    for at in [1, 2, 4, 5, 6, 7, 8, 9, 10, 11, 12] {
        let mut bytes = write_step(Step::Clear { period: 2 });
        bytes[at] = 1;
        assert_eq!(run.call_bytes(&bytes), 5, "byte {at}");
    }
    for period in [2, 3, 8, 255] {
        assert_eq!(run.call(Step::Clear { period }), 6, "period {period}");
    }
    assert_eq!(run.call(Step::Clear { period: 1 }), 9);
    // P is 2: 6 comes from the table alone.
    let mut run = backed_by_three();
    assert_eq!(run.call(Step::Clear { period: 2 }), 6);
    run.done(&[CLEAR]);
}

/// 9 up to the last back, whoever is the last; c is then above the period.
#[test]
fn when_the_last_has_backed() {
    for last in 1..=3 {
        let mut run = hashed_by_three();
        for peer in 1..=3 {
            run.done(&[0, 1, 2].map(|entry| Step::Hear { peer, entry }));
        }
        for peer in (1..=3).filter(|peer| *peer != last) {
            run.done(&[Step::Back { peer }]);
            assert_eq!(run.call(CLEAR), 9);
        }
        assert_eq!(run.state.peer(last).c, 0);
        run.done(&[Step::Back { peer: last }, CLEAR]);
    }
}

/// c equal to the period is 9, c above it is taken; for each period and each c.
#[test]
fn c_above_the_period() {
    let items = [audit(7)];
    for c in 0..=4 {
        for period in 0..4 {
            let mut run = Run::new(&table_bytes(4, 3, &[1, 2, 3], 4, &items));
            run.state.peers.iter_mut().for_each(|peer| (peer.p, peer.c) = (4, 4));
            run.state.peer_mut(2).c = c;
            let answer = if c > period { 0 } else { 9 };
            assert_eq!(run.call(Step::Clear { period }), answer, "c {c}, period {period}");
        }
    }
}

/// The counters say it and not the bag: a backing of each peer is not enough, and
/// none is needed.
#[test]
fn the_bag_is_not_asked() {
    let mut run = backed_by_three();
    run.state.peer_mut(3).c = 0;
    assert_eq!(run.call(CLEAR), 9);
    let mut run = backed_by_three();
    run.state.bag.truncate(3);
    run.done(&[CLEAR]);
    assert_eq!(run.state.bag, []);
}

/// A peer that is down has backed what it has backed.
#[test]
fn down_peers_count() {
    let mut run = backed_by_three();
    run.done(&[1, 2, 3].map(|peer| Step::Down { peer }));
    run.done(&[CLEAR]);
    let mut run = hashed_by_three();
    for peer in 1..=2 {
        run.done(&[0, 1, 2].map(|entry| Step::Hear { peer, entry }));
        run.done(&[Step::Back { peer }]);
    }
    run.done(&[Step::Down { peer: 3 }]);
    assert_eq!(run.call(CLEAR), 9);
}

/// Peer 4's c is 0 all the time.
#[test]
fn dishonest_peers_are_not_asked() {
    let mut run = backed_by_three();
    assert_eq!(run.state.peer(4).c, 0);
    run.done(&[CLEAR]);
}

#[test]
fn without_honest_peers() {
    let mut run = Run::new(&table_bytes(4, 3, &[], 2, &[audit(7)]));
    run.done(&[1, 2, 3].map(|peer| Step::FalseHash { peer, period: 0, board: 0 }));
    run.done(&[Step::FalseHash { peer: 2, period: 1, board: 0 }, CLEAR]);
    assert_eq!((run.state.bag.len(), hashes(&run, 1)), (1, vec![0]));
}

/// The hashes of the period go, whoever signed them and whatever their boards; those of
/// other periods, the backings and the boards stay in their order.
#[test]
fn what_goes_and_what_stays() {
    let mut run = backed_by_three();
    run.done(&[
        Step::FalseHash { peer: 4, period: 1, board: 0 },
        Step::FalseHash { peer: 4, period: 0, board: 0 },
        Step::FalseBacking { peer: 4, period: 0, board: 1 },
        Step::Publish { entry: 3 },
        Step::FalseHash { peer: 4, period: 1, board: 1 },
        Step::FalseHash { peer: 4, period: 0, board: 1 },
    ]);
    assert_eq!(hashes(&run, 0), [0, 1, 2, 7, 11]);
    let before = run.state.clone();
    let stay = [3, 4, 5, 6, 8, 9, 10].map(|entry| before.bag[entry].clone());
    run.done(&[CLEAR]);
    assert_eq!(run.state.bag, stay);
    assert_eq!(run.state.boards(), [(0, [0].into())]);
    // Nothing else is altered, but for what was heard.
    run.state.bag = before.bag.clone();
    for peer in 1..=4 {
        run.state.peer_mut(peer).heard = before.peer(peer).heard.clone();
    }
    assert_eq!(run.state, before);
}

/// Heard numbers follow what they are of, also those of a dishonest peer in a lent
/// state; those of removed entries go.
#[test]
fn heard_numbers_follow() {
    let mut run = backed_by_three();
    run.done(&[1, 2, 3].map(|peer| Step::Close { peer }));
    run.done(&[
        Step::FalseHash { peer: 4, period: 1, board: 0 },
        Step::FalseHash { peer: 4, period: 0, board: 0 },
        Step::FalseHash { peer: 4, period: 1, board: 1 },
        Step::Hear { peer: 1, entry: 6 },
        Step::Hear { peer: 2, entry: 7 },
        Step::Hear { peer: 2, entry: 8 },
    ]);
    run.state.peer_mut(4).heard = [1, 7, 8].into();
    assert_eq!(heard(&run, 1), [0, 1, 2, 6]);
    run.done(&[CLEAR]);
    assert_eq!([1, 2, 3, 4].map(|peer| heard(&run, peer)), [vec![3], vec![4], vec![], vec![4]]);
    assert_eq!(hashes(&run, 1), [3, 4]);
}

/// Numbers of entries mean those that stand there now, and above them is nothing.
#[test]
fn numbers_afresh() {
    let mut run = backed_by_three();
    assert_eq!(run.call(Step::Publish { entry: 0 }), 10);
    run.done(&[CLEAR]);
    assert_eq!(run.state.bag.len(), 3);
    assert_eq!(run.call(Step::Hear { peer: 1, entry: 0 }), 10);
    assert_eq!(run.call(Step::Publish { entry: 3 }), 10);
    run.done(&[Step::Publish { entry: 0 }, Step::Publish { entry: 2 }]);
    assert_eq!(run.state.boards().len(), 1);
}

/// A repeat finds nothing to remove.
#[test]
fn a_repeat_changes_nothing() {
    let mut run = backed_by_three();
    run.done(&[Step::Publish { entry: 3 }, CLEAR]);
    let before = run.state.clone();
    run.done(&[CLEAR, CLEAR]);
    assert_eq!(run.state, before);
}

/// A removed hash is unknown and may be sent again: it is then the last entry, and nobody
/// has heard it.
#[test]
fn sent_again() {
    let mut run = backed_by_three();
    run.done(&[CLEAR, Step::Hash { peer: 2, period: 0 }]);
    assert_eq!(hashes(&run, 0), [3]);
    assert_eq!(heard(&run, 1), []);
    run.done(&[Step::Hear { peer: 1, entry: 3 }, Step::Hash { peer: 2, period: 0 }]);
    assert_eq!((run.state.bag.len(), heard(&run, 1)), (4, vec![3]));
    run.done(&[CLEAR]);
    assert_eq!((run.state.bag.len(), heard(&run, 1)), (3, vec![]));
}

/// Full is answered with 256 in the bag and not before: a clear makes room for as many
/// as went.
#[test]
fn room_again() {
    let items: Vec<Vec<u8>> = (0..9).map(audit).collect();
    let mut run = Run::new(&table_bytes(4, 3, &[1, 2, 3], 2, &items));
    run.done(&(0..9).map(|item| Step::Post { item }).collect::<Vec<Step>>());
    for peer in 1..=3 {
        run.done(&[Step::Close { peer }, Step::Hash { peer, period: 0 }]);
    }
    for peer in 1..=3 {
        run.done(&[0, 1, 2].map(|entry| Step::Hear { peer, entry }));
        run.done(&[Step::Back { peer }]);
    }
    let lie = |period, board| Step::FalseHash { peer: 4, period, board };
    run.done(&(0..100).map(|board| lie(0, board)).collect::<Vec<Step>>());
    run.done(&(0..150).map(|board| lie(1, board)).collect::<Vec<Step>>());
    assert_eq!(run.state.bag.len(), BAG_SIZE);
    assert_eq!([run.call(lie(1, 150)), run.call(Step::Publish { entry: 3 })], [13, 13]);
    run.done(&[CLEAR, Step::Publish { entry: 0 }]);
    // Backings, the board and the hashes of period 1; 103 went.
    assert_eq!(run.state.bag.len(), 3 + 150 + 1);
    run.done(&(150..252).map(|board| lie(1, board)).collect::<Vec<Step>>());
    assert_eq!(run.state.bag.len(), BAG_SIZE);
    assert_eq!(run.call(lie(1, 252)), 13);
    // Of period 0 there is none left.
    run.done(&[CLEAR]);
    assert_eq!(run.call(lie(1, 252)), 13);
}

/// What was heard of the next period before a clear serves after it.
#[test]
fn a_back_after_a_clear() {
    let mut run = backed_by_three();
    run.done(&[1, 2, 3].map(|peer| Step::Close { peer }));
    run.done(&[1, 2, 3].map(|peer| Step::Hash { peer, period: 1 }));
    for peer in 1..=3 {
        run.done(&[6, 7, 8].map(|entry| Step::Hear { peer, entry }));
    }
    run.done(&[CLEAR]);
    assert_eq!(hashes(&run, 1), [3, 4, 5]);
    run.done(&[1, 2, 3].map(|peer| Step::Back { peer }));
    run.done(&[Step::Clear { period: 1 }]);
    assert_eq!(run.state.bag.len(), 6);
}

/// The ideal board gets nothing by it.
#[test]
fn nothing_for_the_ideal_board() {
    let run = backed_by_three();
    let mut ideal = IdealBoard::new(&run.table);
    let before = ideal.clone();
    ideal.feed(&run.table, &write_step(CLEAR), 0, None);
    assert_eq!(ideal, before);
}
