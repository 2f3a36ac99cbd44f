//! The box of document 02's P9: what is judged before an op's own refusals, and each
//! reason of 14, by hand.

mod common;

use common::field::*;
use common::*;
use reference::field::{field_message, field_step};

/// The answer to a hand and to a close on a state of peer 1; they are the same.
fn judged(table: &[u8], state: &[u8]) -> u8 {
    let (mut one, mut other) = (state.to_vec(), state.to_vec());
    let answer = field_message(table, 1, &mut one, &filled(&[2, 1]));
    let to_step = field_step(table, 1, &mut other, &filled(&[7, 1]), &mut [0; 13]);
    assert_eq!(answer, to_step);
    answer
}

/// The answer on a state with these bytes, and elsewhere 0.
fn with(bytes: &[(usize, u8)]) -> u8 {
    let mut state = vec![0; 3_717];
    bytes.iter().for_each(|(at, byte)| state[*at] = *byte);
    judged(&four(), &state)
}

/// Four peers, two periods, four items.
#[test]
fn sets_out_of_range() {
    // Held: items 0 to 3 of periods 0 and 1.
    assert_eq!(with(&[(8, 8)]), 0);
    assert_eq!((with(&[(0, 16)]), with(&[(7, 128)]), with(&[(16, 1)])), (14, 14, 14));
    // Shares likewise.
    assert_eq!(with(&[(64, 2), (72, 15)]), 0);
    assert_eq!((with(&[(64, 16)]), with(&[(80, 1)]), with(&[(127, 128)])), (14, 14, 14));
    // The database: signers 1 to 4 of the same. A set has two bytes, a period 128.
    assert_eq!(with(&[(128, 15), (128 + 128 + 6, 15)]), 0);
    assert_eq!((with(&[(128, 16)]), with(&[(129, 1)]), with(&[(128 + 8, 1)])), (14, 14, 14));
    assert_eq!((with(&[(128 + 256, 1)]), with(&[(1_151, 128)])), (14, 14));
}

#[test]
fn numbers_out_of_range() {
    assert_eq!((with(&[(1_152, 1), (1_153, 1)]), with(&[(1_152, 3)])), (0, 14));
    // p is P: a state, in which none is open.
    assert_eq!(with(&[(1_152, 2), (1_153, 2)]), 9);
    assert_eq!((with(&[(1_153, 1)]), with(&[(1_152, 1), (1_153, 2)])), (14, 14));
    assert_eq!((with(&[(1_154, 1)]), with(&[(1_154, 2)]), with(&[(1_154, 128)])), (8, 14, 14));
}

#[test]
fn heard_out_of_range() {
    // One hash: signer 4, period 1, all four items.
    let hash = [(1_155, 1), (1_157, 4), (1_158, 1), (1_159, 15)];
    assert_eq!(with(&hash), 0);
    let and = |at, byte| with(&[&hash[..], &[(at, byte)]].concat());
    assert_eq!((and(1_157, 0), and(1_157, 5)), (14, 14));
    assert_eq!((and(1_158, 2), and(1_159, 16), and(1_166, 128)), (14, 14, 14));
    // A byte after the last one, also if it is fewer than are there.
    assert_eq!((and(1_167, 1), and(3_716, 1), and(1_155, 0)), (14, 14, 14));
    // Two of them: the second has no signer, is the same, is another.
    assert_eq!(and(1_155, 2), 14);
    let two = [&hash[..], &[(1_155, 2), (1_167, 4), (1_168, 1), (1_169, 15)]].concat();
    assert_eq!((with(&two), with(&[&two[..], &[(1_168, 0)]].concat())), (14, 0));
}

/// 256 hashes are taken; 257 and more are not.
#[test]
fn the_number_of_hashes() {
    let items: Vec<Vec<u8>> = (0..9).map(audit).collect();
    let table = table_bytes(4, 3, &[1], 1, &items);
    let mut state = vec![0; 3_717];
    for board in 0..256 {
        let at = 1_157 + 10 * board;
        state[at] = 3;
        state[at + 2..at + 4].copy_from_slice(&(board as u16).to_le_bytes());
    }
    state[1_155..1_157].copy_from_slice(&[0, 1]);
    assert_eq!(judged(&table, &state), 0);
    for count in [[1, 1], [255, 255], [0, 2], [255, 0]] {
        state[1_155..1_157].copy_from_slice(&count);
        assert_eq!(judged(&table, &state), 14, "{count:?}");
    }
}

#[test]
fn lengths() {
    let table = four();
    for length in [0, 1, 3_716, 3_718, 22_906] {
        assert_eq!(judged(&table, &vec![0; length]), 14);
    }
    // A step of 13 bytes, a message of 13, a fetch of 141.
    let answer = |bytes: &[u8]| field_message(&table, 1, &mut vec![0; 3_717], bytes);
    assert_eq!((answer(&filled(&[2, 1])), answer(&[2, 1]), answer(&[2; 14])), (0, 5, 5));
    assert_eq!(answer(&fetched(1, 2, 0, &[])), 9);
    assert_eq!(answer(&fetched(1, 2, 0, &[])[..140]), 5);
    assert_eq!(answer(&[fetched(1, 2, 0, &[]), vec![0]].concat()), 5);
    assert_eq!((answer(&fetched(1, 2, 0, &[])[..13]), answer(&[])), (5, 5));
    let mut hand = fetched(1, 0, 0, &[]);
    hand[0] = 2;
    assert_eq!(answer(&hand), 5);
}

/// What is sent has 13 bytes: 14, before 5.
#[test]
fn rooms() {
    let (table, malformed) = (four(), [7, 1]);
    for room in [0, 12, 14, 141] {
        let (mut state, mut sent) = (vec![0; 3_717], vec![7; room]);
        assert_eq!(field_step(&table, 1, &mut state, &filled(&[7, 1]), &mut sent), 14);
        assert_eq!(field_step(&table, 1, &mut state, &malformed, &mut sent), 14);
        assert_eq!((state, sent), (vec![0; 3_717], vec![7; room]));
        // The table is judged before it.
        assert_eq!(field_step(&table[..5], 1, &mut [], &malformed, &mut [0; 12]), 1);
    }
    assert_eq!(field_step(&table, 1, &mut vec![0; 3_717], &malformed, &mut [7; 13]), 5);
}

/// Each unused field of each op must be 0.
#[test]
fn unused_fields() {
    // Of op, peer, other, period, item and a board byte: those that an op uses.
    let used = [
        (2, &[1, 4][..]),
        (4, &[1, 2, 3, 4]),
        (10, &[1, 2, 3, 12]),
        (3, &[1, 4]),
        (5, &[1, 4]),
        (7, &[1]),
        (9, &[1, 3]),
        (11, &[1]),
        (17, &[1]),
        (18, &[1]),
    ];
    for (op, used) in used {
        for at in [1, 2, 3, 4, 12] {
            let mut bytes = filled(&[op, 1]);
            bytes[at] = 1;
            let (mut state, table) = (vec![0; 3_717], four());
            let answer = match [2, 4, 10].contains(&op) {
                true => field_message(&table, 1, &mut state, &bytes),
                false => field_step(&table, 1, &mut state, &bytes, &mut [0; 13]),
            };
            assert_eq!(answer != 5, used.contains(&at), "op {op}, byte {at}");
        }
    }
    let mut fetch = fetched(1, 2, 0, &[]);
    fetch[4] = 1;
    assert_eq!(field_message(&four(), 1, &mut vec![0; 3_717], &fetch), 5);
    fetch[4..6].copy_from_slice(&[0, 1]);
    assert_eq!(field_message(&four(), 1, &mut vec![0; 3_717], &fetch), 5);
}

/// 6: no such peer, or the bytes name another; 7: it is not honest; both after 5 and before
/// what an op is refused with.
#[test]
fn names_and_roles() {
    let answer = |peer, bytes: &[u8]| {
        let mut state = vec![0; 3_717];
        state[1_154] = 1;
        field_message(&four(), peer, &mut state, &filled(bytes))
    };
    assert_eq!((answer(0, &[2, 0]), answer(5, &[2, 5]), answer(255, &[2, 255])), (6, 6, 6));
    assert_eq!((answer(1, &[2, 2]), answer(2, &[2, 1]), answer(4, &[2, 1])), (6, 6, 6));
    assert_eq!((answer(4, &[2, 4]), answer(4, &[2, 4, 0, 0, 4])), (7, 7));
    assert_eq!((answer(3, &[2, 3]), answer(3, &[2, 3, 0, 0, 4])), (8, 6));
    assert_eq!((answer(0, &[3, 0]), answer(4, &[2, 4, 1])), (5, 5));
}
