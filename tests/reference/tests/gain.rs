//! The count of a step file, of document 02's P11, clause by clause, and the output of
//! the program.

use reference::gain::{gain, gain_line};
use reference::report::INPUT_SIZE;

/// A step with small fields: op, peer, period, item.
fn step(op: u8, peer: u8, period: u8, item: u8) -> Vec<u8> {
    [op, peer, 0, period, item, 0, 0, 0, 0, 0, 0, 0, 0].to_vec()
}

#[test]
fn an_empty_file() {
    assert_eq!(gain(&[]), 0);
}

/// Steps 9, 12 and 15 count each time, the same bytes too.
#[test]
fn each_time() {
    for op in [9, 12, 15] {
        for times in [1, 2, 9, 300] {
            assert_eq!(gain(&step(op, 1, 0, 0).repeat(times)), times, "op {op}");
        }
    }
    let file = [step(9, 1, 0, 0), step(12, 0, 0, 3), step(15, 4, 0, 0), step(9, 1, 0, 0)];
    assert_eq!(gain(&file.concat()), 4);
}

/// Steps 16 are different if one of their 13 bytes is: each byte but the op.
#[test]
fn different_false_backings() {
    let one = step(16, 4, 0, 0);
    assert_eq!(gain(&one.repeat(50)), 1);
    for at in 1..13 {
        let mut other = one.clone();
        other[at] = 1;
        let file = [one.clone(), other.clone(), one.clone(), other];
        assert_eq!(gain(&file.concat()), 2, "byte {at}");
    }
    let boards = (0..=255).flat_map(|board| [step(16, 4, 0, 0), step(16, 4, board, 0)].concat());
    assert_eq!(gain(&boards.collect::<Vec<u8>>()), 256);
}

/// Steps 11 count up to 8 for a peer byte, whatever it is and whatever else they have.
#[test]
fn backs_by_peer_byte() {
    for peer in [0, 1, 16, 17, 255] {
        for times in [1, 7, 8, 9, 100] {
            let counted = times.min(8);
            assert_eq!(gain(&step(11, peer, 0, 0).repeat(times)), counted, "peer {peer}");
            let different = (0..times).flat_map(|k| step(11, peer, k as u8, k as u8));
            assert_eq!(gain(&different.collect::<Vec<u8>>()), counted, "peer {peer}");
        }
    }
    // In turn: 8 for the first, 8 for the second, 5 for the third.
    let in_turn = [step(11, 1, 0, 0), step(11, 2, 0, 0)].concat().repeat(12);
    assert_eq!(gain(&[in_turn, step(11, 3, 0, 0).repeat(5)].concat()), 21);
    let all: Vec<u8> = (0..=255).flat_map(|peer| step(11, peer, 0, 0).repeat(9)).collect();
    assert_eq!(gain(&all), 2_048);
}

/// The op alone decides: a step that is refused as form counts like any other.
#[test]
fn malformed_ones_count() {
    for op in [9, 11, 12, 15, 16] {
        assert_eq!(gain(&[&[op], &[255; 12][..]].concat()), 1, "op {op}");
    }
}

#[test]
fn no_other_step_counts() {
    for op in (0..=255).filter(|op| ![9, 11, 12, 15, 16].contains(op)) {
        assert_eq!(gain(&step(op, 9, 12, 15).repeat(3)), 0, "op {op}");
        assert_eq!(gain(&[op; 13]), 0, "op {op}");
    }
}

/// A short tail is no step, and steps are cut from the file's start.
#[test]
fn a_short_tail() {
    for op in [9, 11, 12, 15, 16] {
        for length in 1..13 {
            assert_eq!(gain(&vec![op; length]), 0, "op {op}");
            let file = [step(9, 1, 0, 0), vec![op; length]].concat();
            assert_eq!(gain(&file), 1, "op {op}");
        }
    }
    let shifted = [vec![1], step(9, 0, 0, 0).repeat(4)].concat();
    assert_eq!(gain(&shifted), 0);
}

/// The clauses are summed up.
#[test]
fn the_sum() {
    let file = [
        step(9, 1, 0, 0).repeat(2),
        step(12, 0, 0, 1).repeat(3),
        step(15, 4, 0, 0).repeat(4),
        step(16, 4, 0, 0).repeat(5),
        step(11, 1, 0, 0).repeat(10),
        step(19, 0, 0, 0).repeat(6),
        vec![9; 12],
    ];
    assert_eq!(gain(&file.concat()), 2 + 3 + 4 + 1 + 8);
}

#[test]
fn the_line_of_the_program() {
    let line = |input: &[u8]| String::from_utf8(gain_line(input)).unwrap();
    assert_eq!(line(&[]), "gain 0\n");
    assert_eq!(line(&[9; 13]), "gain 1\n");
    assert_eq!(line(&[9; 26]), "gain 2\n");
    assert_eq!(line(&[9; 12]), "gain 0\n");
    // 65,536 is 5,041 times 13, and 3.
    assert_eq!(line(&vec![9; INPUT_SIZE]), "gain 5041\n");
    assert_eq!(line(&vec![9; INPUT_SIZE + 1]), "refused 15\n");
    assert_eq!(line(&vec![1; 2 * INPUT_SIZE]), "refused 15\n");
}
