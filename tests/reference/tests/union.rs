//! The union of the databases, reckoned by hand.

mod common;

use common::*;
use reference::form::Step;
use reference::union::{union, union_board};

/// Four honest peers, t = 3, two periods; all four items are posted and peer j
/// holds in period 0 those that are listed for it, and has signed them.
fn signed(items: [&[usize]; 4]) -> Run {
    let texts = [vote(7, &[0]), audit(8), audit(9), cancellation(7)];
    let mut run = Run::new(&table_bytes(4, 3, &[1, 2, 3, 4], 2, &texts));
    run.done(&[0, 1, 2, 3].map(|item| Step::Post { item }));
    for (peer, items) in (1..).zip(items) {
        for item in items {
            run.done(&[Step::Hand { peer, item: *item }, Step::Sign { peer, item: *item }]);
        }
    }
    run
}

fn board(run: &Run, period: usize) -> Vec<usize> {
    union_board(&run.table, &run.state, period).into_iter().collect()
}

/// Item 0 is signed by 1, 2 and 4, item 1 by 2 and 3, item 3 by all four; item 2
/// by none. Each peer has its own signature only.
#[test]
fn no_database_alone_has_three() {
    let run = signed([&[0, 3], &[0, 1, 3], &[1, 3], &[0, 3]]);
    let signers = [(0, [1, 2, 4].into()), (1, [2, 3].into()), (3, [1, 2, 3, 4].into())];
    assert_eq!(union(&run.state, 0), signers.into());
    assert_eq!(board(&run, 0), [0, 3]);
    assert!((1..=4).all(|j| run.state.peer(j).board(&run.table, 0).is_empty()));
}

/// Peer 2's signature on item 1 is in four databases, and peer 3's in two: that
/// makes two signers. A fetch adds none either.
#[test]
fn a_signer_counts_once() {
    let mut run = signed([&[], &[1], &[1], &[]]);
    let take = |peer, other| Step::Take { peer, other, period: 0, item: 1 };
    run.done(&[take(1, 2), take(3, 2), take(4, 2), take(4, 3)]);
    assert_eq!(union(&run.state, 0), [(1, [2, 3].into())].into());
    assert_eq!(board(&run, 0), [0; 0]);
    run.done(&[1, 2, 3, 4].map(|peer| Step::Close { peer }));
    run.done(&[Step::Fetch { peer: 1, other: 4, period: 0 }]);
    assert_eq!(union(&run.state, 0), [(1, [2, 3].into())].into());
}

/// Peers 1 and 2 sign item 2 in period 0, peers 2 and 3 in period 1: two signers
/// in each period, and with peer 4 in period 1 three there.
#[test]
fn each_period_has_its_own() {
    let mut run = signed([&[2], &[2], &[], &[]]);
    run.done(&[1, 2, 3, 4].map(|peer| Step::Close { peer }));
    let sign = |peer| [Step::Hand { peer, item: 2 }, Step::Sign { peer, item: 2 }];
    run.done(&[sign(2), sign(3)].concat());
    assert_eq!((board(&run, 0), board(&run, 1)), (vec![], vec![]));
    run.done(&sign(4));
    assert_eq!((board(&run, 0), board(&run, 1)), (vec![], vec![2]));
    assert_eq!(union(&run.state, 0), [(2, [1, 2].into())].into());
}

/// A database counts whether its peer is up or down; a receipt share adds no
/// signer.
#[test]
fn down_peers_count_and_shares_do_not() {
    let mut run = signed([&[1], &[1], &[1], &[]]);
    run.done(&[Step::Down { peer: 3 }]);
    assert_eq!(board(&run, 0), [1]);
    let take = |other| Step::Take { peer: 4, other, period: 0, item: 1 };
    run.done(&[take(1), take(2), take(3), Step::Share { peer: 4, item: 1 }]);
    assert_eq!(union(&run.state, 0), [(1, [1, 2, 3].into())].into());
}
