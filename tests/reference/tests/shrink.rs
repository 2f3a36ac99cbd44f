//! Rehearsals cut down, of document 02's P7, each step reasoned by hand: which are
//! left, in how many passes, and what is refused before that.

mod common;

use common::*;
use reference::form::{write_step, Step};
use reference::season::{Season, SEASONS};
use reference::shrink::{shrink, steps_left};

fn output(input: &[u8]) -> String {
    String::from_utf8(shrink(input)).unwrap()
}

/// The numbers that are left, and how many steps each pass dropped.
fn left(table: &[u8], steps: &[Step]) -> (Vec<usize>, Vec<usize>) {
    let input = rehearsal(table, steps);
    let left = steps_left(&input).unwrap();
    let lines: Vec<String> = left.numbers.iter().map(|number| format!("{number}\n")).collect();
    assert_eq!(output(&input), lines.concat());
    (left.numbers, left.dropped)
}

/// One honest peer, two periods, two items of which none is posted and which clash.
fn one_peer() -> Vec<u8> {
    table_bytes(1, 1, &[1], 2, &[vote(7, &[1]), vote(7, &[2])])
}

const POST: Step = Step::Post { item: 0 };
const HAND: Step = Step::Hand { peer: 1, item: 0 };
const SIGN: Step = Step::Sign { peer: 1, item: 0 };
const SHARE: Step = Step::Share { peer: 1, item: 0 };
const CLOSE: Step = Step::Close { peer: 1 };
const BACK: Step = Step::Back { peer: 1 };
const DOWN: Step = Step::Down { peer: 1 };
const UP: Step = Step::Up { peer: 1 };

/// No steps, or a last one that is done, whatever was refused before it.
#[test]
fn clean() {
    for season in SEASONS {
        let table = table_bytes_of(season, 1, 1, &[1], 1, &[cancellation(7)]);
        assert_eq!(output(&table), "refused 18\n");
        assert_eq!(output(&rehearsal(&table, &[POST])), "refused 18\n");
        assert_eq!(output(&rehearsal(&table, &[HAND, SIGN, POST])), "refused 18\n");
        // A repeat is done too.
        assert_eq!(output(&rehearsal(&table, &[POST, HAND, POST])), "refused 18\n");
    }
    for count in 0..=case_r_steps().len() {
        let steps = &case_r_steps()[..count];
        assert_eq!(output(&rehearsal(&CASE_R_TABLE, steps)), "refused 18\n", "{count} steps");
    }
}

/// 1 to 4 come before 18, which each of these would be with a table in order, and
/// before any answer.
#[test]
fn refused_tables() {
    let bad = [vote(7, &[]), audit(8), audit(8)];
    let mut offset = CASE_R_TABLE.to_vec();
    offset[7] += 1;
    let tables = [
        table_bytes(3, 2, &[], 1, &[]),
        offset,
        table_bytes(1, 1, &[1], 1, &bad),
        table_bytes(1, 1, &[1], 1, &bad[1..]),
    ];
    for (number, table) in (1..).zip(tables) {
        for steps in [&[][..], &[POST], &[SIGN], &[POST, SIGN]] {
            assert_eq!(output(&rehearsal(&table, steps)), format!("refused {number}\n"));
        }
    }
    assert_eq!(output(&[]), "refused 1\n");
    assert_eq!(output(&[1, 1, 0, 1, 1]), "refused 1\n");
    assert_eq!(output(&[0, 3, 1, 1, 0, 1, 1, 0]), "refused 1\n");
}

/// Of 65,536 bytes behind case R's table of 15, 5,040 steps have 13 and the last has
/// one: 5,041, all answered 5. The last alone answers that too. One byte more is 15,
/// and that before all.
#[test]
fn input_lengths() {
    let mut input = CASE_R_TABLE.to_vec();
    input.resize(65_536, 0);
    assert_eq!(output(&input), "5041\n");
    input.push(0);
    assert_eq!(output(&input), "refused 15\n");
    // Posts, the last of them whole: the table has 15 bytes, and 15 + 13 · 5,040 is
    // 65,535.
    let posts = rehearsal(&CASE_R_TABLE, &[POST; 5_040]);
    assert_eq!((posts.len(), output(&posts)), (65_535, "refused 18\n".to_string()));
    assert_eq!(output(&[posts, vec![0, 0]].concat()), "refused 15\n");
    assert_eq!(output(&[0; 65_536]), "refused 1\n");
    assert_eq!(output(&[0; 65_537]), "refused 15\n");
}

/// There is nothing to drop.
#[test]
fn one_step() {
    assert_eq!(output(&rehearsal(&one_peer(), &[HAND])), "1\n");
    assert_eq!(left(&one_peer(), &[HAND]), (vec![1], vec![0]));
    for length in 1..13 {
        let tail = &write_step(POST)[..length];
        assert_eq!(output(&[&one_peer()[..], tail].concat()), "1\n", "{length} bytes");
    }
}

/// A short tail answers 5 whatever is before it; it is a step, and has its number. So
/// does a step of no op.
#[test]
fn no_form() {
    let steps = case_r_steps();
    for length in 1..=13 {
        let tail = vec![0; length];
        let input = [rehearsal(&CASE_R_TABLE, &steps), tail].concat();
        assert_eq!(output(&input), "11\n", "{length} bytes");
    }
    // Before the last they are dropped as any other, and numbered: a sign of what is
    // not held is 10.
    let input = [one_peer(), vec![0; 26], write_step(SIGN).to_vec()].concat();
    assert_eq!(output(&input), "3\n");
}

/// A hand of what is not posted is 10. Without the up it would be 8, so that the first
/// pass keeps it; without the down it is 10 still. The second pass drops the up, the
/// third nothing.
#[test]
fn passes() {
    assert_eq!(left(&one_peer(), &[DOWN, UP, HAND]), (vec![3], vec![1, 1, 0]));
    // Of two such the last up is kept at first, and all before it goes.
    assert_eq!(left(&one_peer(), &[DOWN, UP, DOWN, UP, HAND]), (vec![5], vec![3, 1, 0]));
    // An up that changes nothing goes at once.
    assert_eq!(left(&one_peer(), &[UP, HAND]), (vec![2], vec![1, 0]));
    // A sign of what is not held in the open period is 10. Without the close it would
    // be held; without the hand, and then without the post, it is not. Then the close
    // can go too.
    assert_eq!(left(&one_peer(), &[POST, HAND, CLOSE, SIGN]), (vec![4], vec![2, 1, 0]));
}

/// Peer 1 backs period 0, closes period 1 and cannot back that: 12. Without the second
/// close it would have nothing to back, 9; without the first back it would back period
/// 0, 0. Without the hear the first back is refused, and the last is 12 for period 0;
/// without the hash and without the first close likewise. Now the first back comes
/// before the only close: what was done is refused, and goes in the second pass.
#[test]
fn refused_on_the_way() {
    let hash = Step::Hash { peer: 1, period: 0 };
    let hear = Step::Hear { peer: 1, entry: 0 };
    let steps = [CLOSE, hash, hear, BACK, CLOSE, BACK];
    assert_eq!(left(&one_peer(), &steps), (vec![5, 6], vec![3, 1, 0]));
}

/// A hand to a peer that is down is 8. Without the down it would be refused as well,
/// with 10: that is another number. Where the item is posted, it would be 0.
#[test]
fn the_same_number() {
    assert_eq!(left(&one_peer(), &[DOWN, HAND]), (vec![1, 2], vec![0]));
    assert_eq!(left(&one_peer(), &[POST, DOWN, HAND]), (vec![2, 3], vec![1, 0]));
    // A sign in no open period is 9, in an open one 10; a close alone leaves one open.
    assert_eq!(left(&one_peer(), &[CLOSE, CLOSE, SIGN]), (vec![1, 2, 3], vec![0]));
    assert_eq!(left(&one_peer(), &[CLOSE, SIGN]), (vec![2], vec![1, 0]));
}

/// Of two downs, and of four closes where two are needed, the first are left: the
/// last are tried before them.
#[test]
fn from_the_last_to_the_first() {
    assert_eq!(left(&one_peer(), &[DOWN, DOWN, HAND]), (vec![1, 3], vec![1, 0]));
    let closes = [CLOSE, CLOSE, CLOSE, CLOSE, SIGN];
    assert_eq!(left(&one_peer(), &closes), (vec![1, 2, 5], vec![2, 0]));
    // Of two posts likewise. The clash needs both items posted, and the first held.
    let [other, last] = [Step::Post { item: 1 }, Step::Hand { peer: 1, item: 1 }];
    let steps = [POST, POST, HAND, other, other, SIGN, CLOSE, last];
    assert_eq!(left(&one_peer(), &steps), (vec![1, 3, 4, 8], vec![4, 0]));
}

/// The last has its own number, and not that of the same bytes before it.
#[test]
fn the_same_step_before() {
    assert_eq!(left(&one_peer(), &[HAND, HAND]), (vec![2], vec![1, 0]));
    assert_eq!(left(&one_peer(), &[SIGN, HAND, SIGN]), (vec![3], vec![2, 0]));
    // Two closes are done, the third is 9; the fourth too, without the third.
    assert_eq!(left(&one_peer(), &[CLOSE; 3]), (vec![1, 2, 3], vec![0]));
    assert_eq!(left(&one_peer(), &[CLOSE; 4]), (vec![1, 2, 4], vec![1, 0]));
}

/// A step names an entry by its number, whatever was dropped before that entry. Two
/// peers, both needed; peer 2 is dishonest.
#[test]
fn entries_keep_their_numbers() {
    let table = table_bytes(2, 2, &[1], 2, &[]);
    let hash = |period| Step::FalseHash { peer: 2, period, board: 0 };
    let backing = |period| Step::FalseBacking { peer: 2, period, board: 0 };
    let publish = |entry| Step::Publish { entry };
    // Entry 1 is one peer's backing: 12. Without the hash it would be entry 0, and
    // entry 1 not there: 10.
    assert_eq!(left(&table, &[hash(0), backing(0), publish(1)]), (vec![1, 2, 3], vec![0]));
    // An entry behind the one named is not needed, and each before it is.
    let steps = [hash(0), backing(0), backing(1), publish(1)];
    assert_eq!(left(&table, &steps), (vec![1, 2, 4], vec![1, 0]));
    let steps = [hash(0), backing(0), backing(1), publish(2)];
    assert_eq!(left(&table, &steps), (vec![1, 2, 3, 4], vec![0]));
    // Entry 1 is a hash of period 1, which is not closed: 9, and also without the close
    // of period 0. Without the first hash it would be entry 0.
    let steps = [hash(0), CLOSE, hash(1), Step::Hear { peer: 1, entry: 1 }];
    assert_eq!(left(&table, &steps), (vec![1, 3, 4], vec![1, 0]));
    // Without the first of two hashes of open periods the second would be entry 0, and
    // 9 as well: but the second goes first, and then there is none.
    let steps = [hash(0), hash(1), Step::Hear { peer: 1, entry: 0 }];
    assert_eq!(left(&table, &steps), (vec![1, 3], vec![1, 0]));
    // A hash is no backing, 10, and neither is what is not there.
    let steps = [hash(0), backing(0), publish(0)];
    assert_eq!(left(&table, &steps), (vec![3], vec![2, 0]));
}

/// A share that was given in an earlier period: the post, the hand, the sign, the share
/// and the close are needed. The receipt, the share refused between, and what is held
/// and signed again are not.
#[test]
fn given() {
    let receipt = Step::Receipt { period: 0, item: 0 };
    let steps = [POST, HAND, SIGN, SHARE, receipt, CLOSE, SHARE, HAND, SIGN, SHARE];
    assert_eq!(left(&one_peer(), &steps), (vec![1, 2, 3, 4, 6, 10], vec![4, 0]));
}

/// Two audits of one ballot clash if they name different places.
#[test]
fn clash_of_the_new_season() {
    let items = [placed_audit(7, 1), placed_audit(7, 2)];
    let table = table_bytes_of(Season::New, 1, 1, &[1], 2, &items);
    let [other, last] = [Step::Post { item: 1 }, Step::Hand { peer: 1, item: 1 }];
    let steps = [other, DOWN, POST, UP, HAND, SIGN, CLOSE, last];
    // The up is needed as long as the down is there.
    assert_eq!(left(&table, &steps), (vec![1, 3, 5, 8], vec![3, 1, 0]));
}

/// 256 false hashes fill the bag, of 32 boards of items 0 to 4 in each of 8 periods,
/// and the next one, of item 5, is 13. Each of them is needed, else it would be 0; and
/// each post, else the bag would not be full or the last would be 10. The repeat of the
/// first, step 263, is not: it is tried before the first.
#[test]
fn a_full_bag() {
    let items: Vec<Vec<u8>> = (0..6).map(audit).collect();
    let table = table_bytes(1, 1, &[], 8, &items);
    let hash = |k: usize| Step::FalseHash { peer: 1, period: k % 8, board: k as u64 / 8 };
    let mut steps: Vec<Step> = (0..6).map(|item| Step::Post { item }).collect();
    steps.extend((0..256).map(hash).chain([hash(0), hash(256)]));
    let expected: Vec<usize> = (1..=262).chain([264]).collect();
    assert_eq!(left(&table, &steps), (expected, vec![1, 0]));
}
