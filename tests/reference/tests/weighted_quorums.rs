//! Quorums by weight, of document 02's P8, run by hand: few peers that weigh enough, and
//! many that do not. `Run::call` also checks that a refused call alters nothing.

mod common;

use common::*;
use reference::form::{write_step, Step};
use reference::ideal::{reaches_honest_share, IdealBoard};
use reference::report::rehearse;
use reference::state::Entry;
use reference::table::{read_table, Table};
use reference::union::union_board;

/// Four peers of which peer 1 weighs 4 and the others 1: W is 7, and t is 5. So peer 1
/// and any other are a quorum, and the other three, who would be one by heads, are not.
fn bytes(honest: &[usize]) -> Vec<u8> {
    weighted(&[4, 1, 1, 1], 5, honest, 2, &[vote(7, &[0]), placed_audit(8, 1), cancellation(7)])
}

/// All items posted, and peer 4 dishonest.
fn posted() -> Run {
    let mut run = Run::new(&bytes(&[1, 2, 3]));
    run.done(&[0, 1, 2].map(|item| Step::Post { item }));
    run
}

/// These peers sign the item, and each honest one takes their signatures.
fn sign(run: &mut Run, item: usize, signers: &[usize]) {
    for peer in signers.iter().copied() {
        match run.table.is_honest(peer) {
            true => run.done(&[Step::Hand { peer, item }, Step::Sign { peer, item }]),
            false => run.done(&[Step::FalseSignature { peer, period: 0, item }]),
        }
    }
    for peer in run.table.honest.clone() {
        let take = |other: &usize| Step::Take { peer, other: *other, period: 0, item };
        run.done(&signers.iter().map(take).collect::<Vec<Step>>());
    }
}

#[test]
fn sums() {
    let table = posted().table;
    let quorum = |peers: &[usize]| table.is_quorum(&peers.iter().copied().collect());
    assert!(quorum(&[1, 2]) && quorum(&[1, 4]) && quorum(&[1, 2, 3, 4]));
    assert!(!quorum(&[]) && !quorum(&[1]) && !quorum(&[2, 3]) && !quorum(&[2, 3, 4]));
}

#[test]
fn shares() {
    let share = |peer| Step::Share { peer, item: 0 };
    let mut run = posted();
    sign(&mut run, 0, &[1]);
    assert_eq!(run.call(share(1)), 12);
    sign(&mut run, 0, &[1, 2]);
    assert_eq!([1, 2, 3].map(|peer| run.call(share(peer))), [0, 0, 0]);
    let mut run = posted();
    sign(&mut run, 0, &[2, 3, 4]);
    assert_eq!([1, 2, 3].map(|peer| run.call(share(peer))), [12, 12, 12]);
    sign(&mut run, 0, &[1, 2, 3, 4]);
    assert_eq!([1, 2, 3].map(|peer| run.call(share(peer))), [0, 0, 0]);
}

#[test]
fn receipts() {
    let receipt = Step::Receipt { period: 0, item: 0 };
    let share = |peer| Step::Share { peer, item: 0 };
    let mut run = posted();
    sign(&mut run, 0, &[1, 2, 3, 4]);
    run.done(&[share(2), share(3), Step::FalseShare { peer: 4, period: 0, item: 0 }]);
    assert_eq!(run.call(receipt), 12);
    run.done(&[share(1), receipt]);
    let mut run = posted();
    sign(&mut run, 0, &[1, 2]);
    run.done(&[share(1)]);
    assert_eq!(run.call(receipt), 12);
    run.done(&[share(3), receipt]);
    assert_eq!(run.state.sharers(0, 0), [1, 3].into());
}

/// Item 0 is signed by 1 and 2, item 1 by the others, item 2 by peer 1 alone: only item
/// 0 is on a board, and the report shows numbers of signers, not weights.
fn closed() -> Run {
    let mut run = posted();
    sign(&mut run, 0, &[1, 2]);
    sign(&mut run, 1, &[2, 3, 4]);
    sign(&mut run, 2, &[1]);
    run.done(&[1, 2, 3].map(|peer| Step::Close { peer }));
    run
}

#[test]
fn boards() {
    let mut run = closed();
    for peer in [1, 2, 3] {
        assert_eq!(run.state.peer(peer).board(&run.table, 0), [0].into());
    }
    assert_eq!(union_board(&run.table, &run.state, 0), [0].into());
    run.done(&[Step::Hash { peer: 3, period: 0 }]);
    assert_eq!(run.state.bag, [Entry::Hash { signer: 3, period: 0, board: [0].into() }]);
    // No database alone has it, and the union does.
    for peer in run.state.peers.iter_mut().take(2) {
        peer.database.clear();
    }
    run.state.peer_mut(1).record(1, 0, 2);
    run.state.peer_mut(2).record(4, 0, 2);
    run.state.peer_mut(3).database.clear();
    assert!((1..=4).all(|j| run.state.peer(j).board(&run.table, 0).is_empty()));
    assert_eq!(union_board(&run.table, &run.state, 0), [2].into());
}

#[test]
fn heard_hashes() {
    let mut run = closed();
    run.done(&[1, 2, 3].map(|peer| Step::Hash { peer, period: 0 }));
    run.done(&[Step::FalseHash { peer: 4, period: 0, board: 1 }]);
    let hear = |peer, entry| Step::Hear { peer, entry };
    run.done(&[hear(1, 1), hear(1, 2), hear(1, 3), hear(2, 0)]);
    assert_eq!([1, 2].map(|peer| run.call(Step::Back { peer })), [12, 12]);
    run.done(&[hear(1, 0), Step::Back { peer: 1 }]);
    run.done(&[hear(2, 3), Step::Back { peer: 2 }]);
}

#[test]
fn backings() {
    let mut run = closed();
    run.done(&[1, 2, 3].map(|peer| Step::Hash { peer, period: 0 }));
    for peer in [1, 2, 3] {
        run.done(&[0, 1, 2].map(|entry| Step::Hear { peer, entry }));
    }
    // Entries 3, 4 and 5 are the backings of 2, 3 and 4.
    run.done(&[Step::Back { peer: 2 }, Step::Back { peer: 3 }]);
    run.done(&[Step::FalseBacking { peer: 4, period: 0, board: 1 }]);
    assert_eq!([3, 4, 5].map(|entry| run.call(Step::Publish { entry })), [12, 12, 12]);
    let mut few = Run { table: run.table.clone(), state: run.state.clone() };
    few.state.bag.truncate(4);
    for run in [&mut run, &mut few] {
        run.done(&[Step::Back { peer: 1 }, Step::Publish { entry: 3 }]);
        assert_eq!(run.state.boards(), [(0, [0].into())]);
    }
    // In a bag without the others' backings peer 1 is not enough alone.
    few.state.bag.retain(|entry| matches!(entry, Entry::Backing { signer: 1, .. }));
    assert_eq!(few.call(Step::Publish { entry: 0 }), 12);
}

#[test]
fn numbers_of_peers_on_the_report() {
    let sign = |peer| [Step::Hand { peer, item: 0 }, Step::Sign { peer, item: 0 }];
    let take = |other| Step::Take { peer: 1, other, period: 0, item: 0 };
    let mut steps = vec![Step::Post { item: 0 }];
    steps.extend([sign(1), sign(2), sign(3)].concat());
    steps.extend([take(2), take(3), Step::Share { peer: 1, item: 0 }]);
    let answers: String = (1..=steps.len()).map(|k| format!("{k} 0\n")).collect();
    let held = "db 1 0 0 3\ndb 2 0 0 1\ndb 3 0 0 1\ntotals 1 0 0\nend\n";
    let report = format!("peers 4 threshold 5 honest 3\n{answers}{held}");
    let input = rehearsal(&bytes(&[1, 2, 3]), &steps);
    assert_eq!(String::from_utf8(rehearse(&input)).unwrap(), report);
}

/// Whether an item that these honest peers sign, one after the other, is received.
fn received(table: &Table, signers: &[usize]) -> bool {
    let mut ideal = IdealBoard::new(table);
    let post = Step::Post { item: 0 };
    let signs = signers.iter().map(|peer| Step::Sign { peer: *peer, item: 0 });
    for step in [post].into_iter().chain(signs) {
        ideal.feed(table, &write_step(step), 0, None);
    }
    let reached = reaches_honest_share(table, &ideal.honest_signers(0, 0));
    assert_eq!(ideal.received.contains(&(0, 0)), reached);
    reached
}

/// It takes a weight of t plus the honest weight less W: with all honest 5 + 7 − 7 = 5,
/// without peer 4 it is 5 + 6 − 7 = 4, without 3 and 4 it is 3. Without peer 1 it is
/// 5 + 3 − 7 = 1, and then any signer will do.
#[test]
fn what_the_ideal_board_receives() {
    let table = |honest: &[usize]| read_table(&bytes(honest)).unwrap();
    let all = table(&[1, 2, 3, 4]);
    assert!(received(&all, &[1, 2]) && received(&all, &[2, 3, 1]));
    assert!(!received(&all, &[1]) && !received(&all, &[2, 3, 4]));
    let three = table(&[1, 2, 3]);
    assert!(received(&three, &[1]) && !received(&three, &[2, 3]));
    let two = table(&[1, 2]);
    assert!(received(&two, &[1]) && !received(&two, &[2]));
    assert!(received(&table(&[2, 3, 4]), &[4]));
}

/// Two clashing items could each have signers of weight 3, of two honest peers each by
/// heads: that is too little for either.
#[test]
fn two_clashing_items() {
    let items = [vote(7, &[0]), vote(7, &[1])];
    let table = read_table(&weighted(&[2, 1, 2, 1], 5, &[1, 2, 3, 4], 1, &items)).unwrap();
    let mut ideal = IdealBoard::new(&table);
    let mut feed = |step| {
        ideal.feed(&table, &write_step(step), 0, None);
        (ideal.received.clone(), ideal.all_allowed)
    };
    feed(Step::Post { item: 0 });
    feed(Step::Post { item: 1 });
    for (peer, item) in [(1, 0), (2, 0), (3, 1), (4, 1)] {
        assert_eq!(feed(Step::Sign { peer, item }), ([].into(), true));
    }
    assert_eq!(feed(Step::Sign { peer: 3, item: 0 }), ([(0, 0)].into(), true));
    assert_eq!(feed(Step::Sign { peer: 1, item: 1 }), ([(0, 0)].into(), false));
}
