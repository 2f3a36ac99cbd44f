//! The box of document 02's P9: what it hears and backs, by hand; weights; and what is
//! passed to a peer.

mod common;

use common::field::*;
use common::*;
use reference::field::passed::{passed, sends, Passed};
use reference::form::{write_step, Step};

#[test]
fn hear() {
    let mut field = Field::on(four());
    // Names first: a signer of 0 or above n, a period of P, a board bit of m or above.
    assert_eq!(field.message(&heard(0, 0, 0)), 6);
    assert_eq!(field.message(&heard(5, 0, 0)), 6);
    assert_eq!(field.message(&heard(2, 2, 0)), 6);
    assert_eq!(field.message(&heard(2, 0, 16)), 6);
    assert_eq!(field.message(&heard(2, 0, 1 << 63)), 6);
    assert_eq!(field.message(&heard(2, 0, 15)), 9);
    field.done(&[7, 1]);
    assert_eq!(field.message(&heard(4, 0, 15)), 0);
    assert_eq!(field.message(&heard(2, 0, 1)), 0);
    assert_eq!(field.message(&heard(4, 0, 15)), 0);
    // As they came: number, then signer, period and board of each.
    let first = [(1_152, 1), (1_155, 2), (1_157, 4), (1_159, 15), (1_167, 2), (1_169, 1)];
    assert_eq!(field.not_zero(), first);
    assert_eq!(field.message(&heard(2, 1, 0)), 9);
    field.done(&[17, 1]);
    assert_eq!(field.message(&heard(2, 1, 0)), 8);
    assert_eq!(field.message(&heard(2, 0, 16)), 6);
}

/// Nine items: there are 512 boards.
#[test]
fn a_257th_hash() {
    let items: Vec<Vec<u8>> = (0..9).map(audit).collect();
    let mut field = Field::on(table_bytes(4, 3, &[1], 2, &items));
    field.done(&[7, 1]);
    for board in 0..256 {
        assert_eq!(field.message(&heard(2, 0, board)), 0);
    }
    assert_eq!(field.state[1_155..1_157], [0, 1]);
    assert_eq!(field.message(&heard(2, 0, 256)), 13);
    assert_eq!(field.message(&heard(3, 0, 0)), 13);
    // A repeat of one of 256.
    assert_eq!(field.message(&heard(2, 0, 255)), 0);
    assert_eq!(field.message(&heard(2, 0, 0)), 0);
    // Full comes last.
    assert_eq!(field.message(&heard(2, 1, 256)), 9);
    assert_eq!(field.message(&heard(2, 2, 256)), 6);
    field.done(&[17, 1]);
    assert_eq!(field.message(&heard(2, 0, 256)), 8);
    // The list full, the rest goes on: it backs no board, since one signer is not three.
    field.done(&[18, 1]);
    assert_eq!(field.step(&[11, 1]), (12, None));
}

#[test]
fn back() {
    let mut field = Field::on(four());
    assert_eq!(field.step(&[11, 1]), (9, None));
    field.taken(0, 2, &[2, 3, 4]);
    field.done(&[7, 1]);
    // Its board of period 0 has item 2, that is 4. Hashes of others do not count, nor two
    // of one signer.
    for (signer, board) in [(2, 4), (3, 4), (3, 0), (4, 0), (1, 6)] {
        assert_eq!(field.message(&heard(signer, 0, board)), 0);
        assert_eq!(field.step(&[11, 1]), (12, None));
    }
    assert_eq!(field.message(&heard(4, 0, 4)), 0);
    field.done(&[17, 1]);
    assert_eq!(field.step(&[11, 1]), (8, None));
    field.done(&[18, 1]);
    let backing = [11, 1, 0, 0, 0, 0, 0, 0, 0, 0, 0, 0, 4];
    assert_eq!(field.step(&[11, 1]), (0, Some(backing)));
    assert_eq!(field.state[1_152..1_155], [1, 1, 0]);
    assert_eq!(field.step(&[11, 1]), (9, None));
    // The next period, with an empty board: nothing was heard of it.
    field.done(&[7, 1]);
    assert_eq!(field.step(&[11, 1]), (12, None));
    field.done(&[17, 1]);
    assert_eq!(field.step(&[11, 1]), (8, None));
}

/// Peer 1 weighs 4, the others 1 each; the threshold is 5. Two heads carry an item, three do
/// not, and so with hashes.
#[test]
fn weights_and_not_heads() {
    let items = [placed_audit(7, 1), placed_audit(8, 1)];
    let mut field = Field::on(weighted(&[4, 1, 1, 1], 5, &[1, 2, 3, 4], 1, &items));
    field.taken(0, 0, &[2, 3, 4]);
    field.taken(0, 1, &[1, 2]);
    assert_eq!(field.step(&[5, 1, 0, 0, 0]), (12, None));
    assert_eq!(field.step(&[5, 1, 0, 0, 1]).0, 0);
    field.done(&[7, 1]);
    // Item 1 alone is on its board: 2.
    assert_eq!(field.step(&[9, 1]).1, Some([9, 1, 0, 0, 0, 0, 0, 0, 0, 0, 0, 0, 2]));
    for signer in [2, 3, 4] {
        assert_eq!(field.message(&heard(signer, 0, 2)), 0);
        assert_eq!(field.step(&[11, 1]), (12, None));
    }
    assert_eq!(field.message(&heard(1, 0, 2)), 0);
    assert_eq!(field.step(&[11, 1]).1, Some([11, 1, 0, 0, 0, 0, 0, 0, 0, 0, 0, 0, 2]));
}

/// What calls pass to peer 1, on a board on which three have signed item 0.
#[test]
fn what_is_passed() {
    let mut run = hashed_by_three();
    let to = |run: &Run, j, step| passed(&run.table, &run.state, j, &write_step(step));
    let message = |bytes: &[u8]| Some(Passed::Message(filled(bytes)));
    // Item 0 is posted, item 2 is not, and there is no item 9.
    assert_eq!(to(&run, 1, Step::Hand { peer: 1, item: 0 }), message(&[2, 1]));
    assert_eq!(to(&run, 2, Step::Hand { peer: 1, item: 0 }), None);
    assert_eq!(to(&run, 1, Step::Hand { peer: 1, item: 2 }), None);
    assert_eq!(to(&run, 1, Step::Hand { peer: 1, item: 9 }), None);
    let take = |other, period, item| Step::Take { peer: 1, other, period, item };
    assert_eq!(to(&run, 1, take(3, 0, 0)), message(&[4, 1, 3]));
    assert_eq!(to(&run, 1, take(4, 0, 0)), None);
    assert_eq!(to(&run, 1, take(0, 0, 0)), None);
    // Peer 2's database of period 0 has signers 1, 2 and 3 of item 0.
    let fetch = |other, period| Step::Fetch { peer: 1, other, period };
    assert_eq!(to(&run, 1, fetch(2, 0)), message(&fetched(1, 2, 0, &[(0, 7)])));
    assert_eq!(to(&run, 1, fetch(1, 0)), message(&fetched(1, 1, 0, &[(0, 7)])));
    for step in [fetch(2, 1), fetch(2, 9), fetch(4, 0), fetch(0, 0), fetch(5, 0)] {
        assert_eq!(to(&run, 1, step), None);
    }
    // Entry 2 is the hash of peer 3, of the board with item 0.
    assert_eq!(to(&run, 1, Step::Hear { peer: 1, entry: 2 }), message(&heard(3, 0, 1)));
    assert_eq!(to(&run, 1, Step::Hear { peer: 1, entry: 3 }), None);
    // Its own steps always, also with names out of range; no others.
    let sign = Step::Sign { peer: 1, item: 9 };
    assert_eq!(to(&run, 1, sign), Some(Passed::Step(filled(&[3, 1, 0, 0, 9]))));
    assert_eq!(to(&run, 1, Step::Post { item: 2 }), None);
    assert_eq!(to(&run, 1, Step::Clear { period: 0 }), None);
    assert_eq!(to(&run, 4, Step::FalseSignature { peer: 4, period: 0, item: 0 }), None);
    assert_eq!(passed(&run.table, &run.state, 1, &[7, 1]), None);
    // A peer that is down lends no database.
    run.done(&[Step::Down { peer: 2 }]);
    assert_eq!(to(&run, 1, fetch(2, 0)), None);
}

/// What peer 1 sends with its steps there.
#[test]
fn what_is_sent() {
    let run = hashed_by_three();
    let by = |step| sends(&run.table, &run.state, 1, &write_step(step));
    let of = |step: Step| by(step).map(|bytes| bytes.to_vec());
    assert_eq!(of(Step::Sign { peer: 1, item: 2 }), Some(filled(&[3, 1, 0, 1, 2])));
    assert_eq!(of(Step::Share { peer: 1, item: 0 }), Some(filled(&[5, 1, 0, 1, 0])));
    let board = |op| [&[op], &filled(&[1])[..11], &[1]].concat();
    assert_eq!(of(Step::Hash { peer: 1, period: 0 }), Some(board(9)));
    assert_eq!(of(Step::Back { peer: 1 }), Some(board(11)));
    assert_eq!(of(Step::Hash { peer: 2, period: 0 }), None);
    assert_eq!(of(Step::Close { peer: 1 }), None);
    assert_eq!(of(Step::Hand { peer: 1, item: 0 }), None);
}
