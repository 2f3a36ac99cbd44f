//! The comparison of boxes can fail: each box that is wrong in one way differs from the
//! independent one on some random call, and those that are right on none.

use engine::altered::must_be_found;
use engine::field::call::Call;
use engine::field::fed::Fed;
use engine::field::wrong::{RIGHT_BOXES, WRONG_CALLS};
use engine::field::wrong_messages::WRONG_MESSAGES;
use engine::field::wrong_steps::WRONG_STEPS;
use engine::field::{FieldBox, INDEPENDENT_BOX, PROVED_BOX};
use inputs::closes::{close, wrong_close, Close, Lack};
use inputs::field::calls::{random_call, Given};
use inputs::field::early::early;
use inputs::field::parts::{damage, led, scattered};
use inputs::kinds::{rehearsal, round};
use inputs::random::{run_seed, Random};
use inputs::tables::random_table;
use inputs::unequal::unequal_table;
use reference::field::bytes::{read_part, write_part};
use reference::form::STEP_LENGTH;
use reference::table::{read_front, read_table};

/// A box that was found so often is found.
const ENOUGH: usize = 3;

/// How often each box was found; those that are right are never left out.
struct Found {
    boxes: Vec<FieldBox>,
    times: Vec<usize>,
}

impl Found {
    fn call(&mut self, call: &Call) -> Vec<u8> {
        let due = call.on(&INDEPENDENT_BOX);
        for (field, times) in self.boxes.iter().zip(&mut self.times) {
            if *times < ENOUGH && call.compare(field, &due).is_err() {
                *times += 1;
            }
        }
        due.state().to_vec()
    }
}

/// Calls on a state that messages led to, or on a scattered one; at the end a call on a
/// damaged one.
fn run(random: &mut Random, number: usize, found: &mut Found) {
    let text =
        if number.is_multiple_of(2) { unequal_table(random) } else { random_table(random, 5) };
    let table = read_table(&text).expect("a valid table");
    let honest = random.pick(table.honest.iter().copied());
    let any = random.between(1, table.n);
    let j = if random.once_in(8) { any } else { honest.unwrap_or(any) };
    let mut bytes = match number % 4 < 2 && table.is_honest(j) {
        true => led(random, &text, j, 100),
        false => write_part(&scattered(random, &table)),
    };
    for last in (0..60).map(|k| k == 59) {
        let part = read_part(&table, &bytes).expect("a state that is taken");
        let Given { peer, passed, out } = random_call(random, &table, j, &part);
        if last {
            damage(random, &table, &mut bytes);
        }
        let call = Call { table: &text, peer, before: &bytes, passed: &passed, out: &out };
        bytes = found.call(&call);
    }
}

#[test]
fn every_wrong_box_is_found() {
    let wrong = [&WRONG_CALLS[..], &WRONG_MESSAGES, &WRONG_STEPS].concat();
    let right = [&RIGHT_BOXES[..], &[PROVED_BOX]].concat();
    let boxes = [&wrong[..], &right].concat();
    let (seed, mut found) = (run_seed(), Found { times: vec![0; boxes.len()], boxes });
    for number in 0..600 {
        run(&mut Random::new(seed, number), number, &mut found);
    }
    let times = found.times;
    wrong.iter().zip(&times).for_each(|(field, times)| must_be_found(field.name, *times));
    assert_eq!(times[wrong.len()..], vec![0; right.len()]);
}

/// A table and its calls: of a rehearsal, of one that tells too early, of a close, or of
/// one that lacks something, so that boards differ.
fn made(seed: u64, number: usize) -> (Vec<u8>, Vec<Vec<u8>>) {
    let random = &mut Random::new(seed, number);
    let closed = match number % 4 {
        0 => Some(close(random, number / 4)),
        1 => Some(wrong_close(random, [Lack::HashAfterFetches, Lack::Fetch][number / 4 % 2])),
        _ => None,
    };
    if let Some(Close { text, earlier, later, .. }) = closed {
        return (text, [earlier, later].concat());
    }
    let input = match number % 4 {
        2 => early(random),
        _ => rehearsal(seed, number / 4).1,
    };
    let end = read_front(&input).map_or(input.len(), |(_, end)| end);
    let calls = input[end..].chunks(STEP_LENGTH).map(|call| call.to_vec());
    (input[..end].to_vec(), calls.collect())
}

/// Whether a box leaves the step of its board.
fn leaves_step(text: &[u8], calls: &[Vec<u8>], field: FieldBox) -> bool {
    let mut fed = Fed::alone(text, field);
    calls.iter().any(|call| fed.call(call).is_err())
}

/// What a board cannot find: no rehearsal passes such bytes to an honest peer, it comes
/// after a full box, or it is the order of what was heard.
const UNSEEN: [&str; 12] = [
    "form before state",
    "an output of any length",
    "messages: a step taken",
    "steps: a message taken",
    "the peer that the bytes name",
    "a fetched row not judged",
    "a dishonest peer served",
    "a 257th hash heard",
    "a 257th hash for the last",
    "a full list refuses a repeat",
    "full before period",
    "hashes kept in order",
];

/// The board beside them finds the others, without an independent box.
#[test]
fn a_board_finds_wrong_boxes() {
    let mut left = [&WRONG_CALLS[..], &WRONG_MESSAGES, &WRONG_STEPS].concat();
    left.retain(|field| !UNSEEN.contains(&field.name));
    let (seed, wrong) = (run_seed(), left.len());
    for number in 0..4 * round() {
        if left.is_empty() {
            break;
        }
        let (text, calls) = made(seed, number);
        if calls.len() < 400 && read_table(&text).is_ok() {
            left.retain(|field| !leaves_step(&text, &calls, *field));
            assert!(!RIGHT_BOXES.iter().any(|field| leaves_step(&text, &calls, *field)));
        }
    }
    let left: Vec<&str> = left.iter().map(|field| field.name).collect();
    println!("{} of {wrong} found by the board", wrong - left.len());
    assert_eq!(left, [""; 0], "seed {seed}");
}
