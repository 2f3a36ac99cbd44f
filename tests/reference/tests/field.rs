//! The box of document 02's P9, each op with each of its answers in the order of judging:
//! bytes and numbers reckoned by hand.

mod common;

use common::field::*;
use reference::field::{field_message, field_state_length, field_step};

#[test]
fn a_fresh_box() {
    assert_eq!(field_state_length(), 3_717);
    let mut field = Field::on(four());
    assert_eq!(field.state, vec![0; 3_717]);
    // Hand 0: it holds item 0 in period 0, which is bit 0.
    assert_eq!(field.message(&[2, 1, 0, 0, 0]), 0);
    assert_eq!(field.not_zero(), [(0, 1)]);
}

#[test]
fn hand() {
    let mut field = Field::on(four());
    // There are four items, 0 to 3.
    assert_eq!(field.message(&[2, 1, 0, 0, 4]), 6);
    assert_eq!(field.message(&[2, 1, 0, 0, 0]), 0);
    assert_eq!(field.message(&[2, 1, 0, 0, 0]), 0);
    // Items 0 and 1 are votes of ballot 7.
    assert_eq!(field.message(&[2, 1, 0, 0, 1]), 11);
    field.done(&[7, 1]);
    assert_eq!(field.message(&[2, 1, 0, 0, 1]), 11);
    // Held again in period 1: bit 64, in byte 8; a cancellation is bit 67.
    assert_eq!(field.message(&[2, 1, 0, 0, 0]), 0);
    assert_eq!(field.message(&[2, 1, 0, 0, 3]), 0);
    assert_eq!(field.not_zero(), [(0, 1), (8, 1 + 8), (1_152, 1)]);
    // None open: before the clash. Down: before that. The name: before all.
    field.done(&[7, 1]);
    assert_eq!(field.message(&[2, 1, 0, 0, 1]), 9);
    field.done(&[17, 1]);
    assert_eq!(field.message(&[2, 1, 0, 0, 1]), 8);
    assert_eq!(field.message(&[2, 1, 0, 0, 4]), 6);
}

#[test]
fn sign() {
    let mut field = Field::on(four());
    assert_eq!(field.step(&[3, 1, 0, 0, 4]), (6, None));
    assert_eq!(field.step(&[3, 1, 0, 0, 2]), (10, None));
    assert_eq!(field.message(&[2, 1, 0, 0, 2]), 0);
    let signature = [3, 1, 0, 0, 2, 0, 0, 0, 0, 0, 0, 0, 0];
    assert_eq!(field.step(&[3, 1, 0, 0, 2]), (0, Some(signature)));
    // Signer 1 of item 2 in period 0 is bit 32 of the database.
    assert_eq!(field.not_zero(), [(0, 4), (128 + 4, 1)]);
    let before = field.state.clone();
    assert_eq!(field.step(&[3, 1, 0, 0, 2]), (0, Some(signature)));
    assert_eq!(field.state, before);
    // It was held in period 0 only.
    field.done(&[7, 1]);
    assert_eq!(field.step(&[3, 1, 0, 0, 2]), (10, None));
    assert_eq!(field.message(&[2, 1, 0, 0, 2]), 0);
    assert_eq!(field.step(&[3, 1, 0, 0, 2]).1, Some([3, 1, 0, 1, 2, 0, 0, 0, 0, 0, 0, 0, 0]));
    field.done(&[7, 1]);
    assert_eq!(field.step(&[3, 1, 0, 0, 2]), (9, None));
    field.done(&[17, 1]);
    assert_eq!(field.step(&[3, 1, 0, 0, 2]), (8, None));
    assert_eq!(field.step(&[3, 1, 0, 0, 4]), (6, None));
}

#[test]
fn take() {
    let mut field = Field::on(four());
    for [other, period, item] in [[0, 0, 0], [5, 0, 0], [2, 2, 0], [2, 0, 4]] {
        assert_eq!(field.message(&[4, 1, other, period, item]), 6);
    }
    // Of anyone: an honest peer, a liar, itself. Of the open period, not the next.
    assert_eq!(field.message(&[4, 1, 2, 0, 0]), 0);
    assert_eq!(field.message(&[4, 1, 4, 0, 0]), 0);
    assert_eq!(field.message(&[4, 1, 1, 0, 0]), 0);
    assert_eq!(field.message(&[4, 1, 2, 1, 0]), 9);
    assert_eq!(field.not_zero(), [(128, 1 + 2 + 8)]);
    field.done(&[7, 1]);
    assert_eq!(field.message(&[4, 1, 2, 1, 0]), 0);
    field.done(&[7, 1]);
    assert_eq!(field.message(&[4, 1, 3, 0, 3]), 0);
    // The set of (1, 0) is number 64, of two bytes each.
    assert_eq!(field.not_zero(), [(128, 11), (128 + 6, 4), (128 + 128, 2), (1_152, 2)]);
    field.done(&[17, 1]);
    assert_eq!(field.message(&[4, 1, 2, 1, 0]), 8);
    assert_eq!(field.message(&[4, 1, 2, 2, 0]), 6);
}

#[test]
fn share() {
    let mut field = Field::on(four());
    assert_eq!(field.step(&[5, 1, 0, 0, 4]), (6, None));
    field.taken(0, 0, &[2, 3]);
    assert_eq!(field.step(&[5, 1, 0, 0, 0]), (12, None));
    // It need not have signed the item, nor hold it.
    field.taken(0, 0, &[4]);
    let share = [5, 1, 0, 0, 0, 0, 0, 0, 0, 0, 0, 0, 0];
    assert_eq!(field.step(&[5, 1, 0, 0, 0]), (0, Some(share)));
    assert_eq!(field.step(&[5, 1, 0, 0, 0]), (0, Some(share)));
    assert_eq!(field.not_zero(), [(64, 1), (128, 14)]);
    // Given in an earlier period, before short: nobody has signed in period 1.
    field.done(&[7, 1]);
    assert_eq!(field.step(&[5, 1, 0, 0, 0]), (17, None));
    field.taken(1, 0, &[2, 3, 4]);
    assert_eq!(field.step(&[5, 1, 0, 0, 0]), (17, None));
    // Signers of an earlier period do not count.
    field.taken(0, 2, &[2, 3, 4]);
    assert_eq!(field.step(&[5, 1, 0, 0, 2]), (12, None));
    field.taken(1, 2, &[2, 3, 4]);
    assert_eq!(field.step(&[5, 1, 0, 0, 2]).1, Some([5, 1, 0, 1, 2, 0, 0, 0, 0, 0, 0, 0, 0]));
    field.done(&[7, 1]);
    assert_eq!(field.step(&[5, 1, 0, 0, 0]), (9, None));
    field.done(&[17, 1]);
    assert_eq!(field.step(&[5, 1, 0, 0, 0]), (8, None));
    assert_eq!(field.step(&[5, 1, 0, 0, 4]), (6, None));
}

#[test]
fn close_down_and_up() {
    let mut field = Field::on(four());
    assert_eq!(field.step(&[7, 1]), (0, Some([0; 13])));
    assert_eq!(field.step(&[17, 1]), (0, Some([0; 13])));
    assert_eq!(field.step(&[17, 1]), (0, Some([0; 13])));
    assert_eq!(field.not_zero(), [(1_152, 1), (1_154, 1)]);
    assert_eq!(field.step(&[7, 1]), (8, None));
    assert_eq!(field.step(&[18, 1]), (0, Some([0; 13])));
    assert_eq!(field.step(&[18, 1]), (0, Some([0; 13])));
    assert_eq!(field.step(&[7, 1]), (0, Some([0; 13])));
    assert_eq!(field.not_zero(), [(1_152, 2)]);
    assert_eq!(field.step(&[7, 1]), (9, None));
    field.done(&[17, 1]);
    assert_eq!(field.step(&[7, 1]), (8, None));
}

#[test]
fn fetch() {
    let mut field = Field::on(four());
    // Not closed. A name that is wrong comes before that.
    assert_eq!(field.message(&fetched(1, 2, 0, &[])), 9);
    assert_eq!(field.message(&fetched(1, 0, 0, &[])), 6);
    assert_eq!(field.message(&fetched(1, 5, 0, &[])), 6);
    assert_eq!(field.message(&fetched(1, 2, 2, &[])), 6);
    // A signer above n, a signer of an item of m or above.
    assert_eq!(field.message(&fetched(1, 2, 0, &[(0, 0b1_0000)])), 6);
    assert_eq!(field.message(&fetched(1, 2, 0, &[(4, 1)])), 6);
    assert_eq!(field.message(&fetched(1, 2, 0, &[(63, 1)])), 6);
    field.taken(0, 0, &[1]);
    field.done(&[7, 1]);
    // From anyone, a liar and itself too; what is there stays.
    assert_eq!(field.message(&fetched(1, 4, 0, &[(0, 0b0110), (3, 0b1000)])), 0);
    assert_eq!(field.message(&fetched(1, 1, 0, &[])), 0);
    assert_eq!(field.not_zero(), [(128, 0b0111), (134, 0b1000), (1_152, 1)]);
    assert_eq!(field.message(&fetched(1, 2, 1, &[])), 9);
    field.done(&[17, 1]);
    assert_eq!(field.message(&fetched(1, 2, 1, &[])), 8);
    assert_eq!(field.message(&fetched(1, 2, 0, &[(4, 1)])), 6);
}

#[test]
fn hash() {
    let mut field = Field::on(four());
    assert_eq!(field.step(&[9, 1, 0, 2]), (6, None));
    assert_eq!(field.step(&[9, 1, 0, 0]), (9, None));
    field.taken(0, 0, &[2, 3, 4]);
    field.taken(0, 1, &[2, 3]);
    field.taken(0, 3, &[1, 2, 3, 4]);
    field.done(&[7, 1]);
    // Items 0 and 3 have three signers: 1 + 8.
    let sent = [9, 1, 0, 0, 0, 0, 0, 0, 0, 0, 0, 0, 9];
    let before = field.state.clone();
    assert_eq!(field.step(&[9, 1, 0, 0]), (0, Some(sent)));
    assert_eq!(field.step(&[9, 1, 0, 0]), (0, Some(sent)));
    assert_eq!(field.state, before);
    field.taken(0, 1, &[1]);
    assert_eq!(field.step(&[9, 1, 0, 0]).1.unwrap()[12], 11);
    assert_eq!(field.step(&[9, 1, 0, 1]), (9, None));
    field.done(&[17, 1]);
    assert_eq!(field.step(&[9, 1, 0, 1]), (8, None));
    assert_eq!(field.step(&[9, 1, 0, 2]), (6, None));
}

/// Each function answers 5 to the other's ops, and to any other.
#[test]
fn each_function_has_its_ops() {
    for op in 0..=255 {
        let bytes = [op, 1, 0, 0, 0, 0, 0, 0, 0, 0, 0, 0, 0];
        let (mut state, mut sent) = (vec![0; 3_717], [1; 13]);
        let is_message = field_message(&four(), 1, &mut state, &bytes) != 5;
        // A fetch of 13 bytes is none.
        assert_eq!(is_message, [2, 4, 10].contains(&op), "{op}");
        let is_step = field_step(&four(), 1, &mut state, &bytes, &mut sent) != 5;
        assert_eq!(is_step, [3, 5, 7, 9, 11, 17, 18].contains(&op), "{op}");
    }
    let mut field = Field::on(four());
    assert_eq!(field.step(&fetched(1, 2, 0, &[])), (5, None));
}
