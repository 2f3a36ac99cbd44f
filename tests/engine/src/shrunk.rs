//! Rehearsals cut down, of document 02's P7: an engine's text beside the one that is
//! due, and what is promised of the steps that are left.

use crate::lent::Lent;
use crate::{board_shrink_most, Engine};
use inputs::random::Random;
use reference::form::STEP_LENGTH;
use reference::state::State;
use reference::step::step;
use reference::table::{read_front, Table};

/// The first thing that goes wrong in a call with room for so many bytes.
fn call(
    engine: &Engine,
    random: &mut Random,
    input: &[u8],
    text: &[u8],
    room: usize,
) -> Result<(), String> {
    let mut out = Lent::random(random, room);
    let mut after = out.clone();
    after.write(text);
    let answer = (engine.shrink)(input, out.part());
    if answer != text.len() {
        return Err(format!("length {answer}, not {}", text.len()));
    }
    out.compare(&after).map_err(|wrong| format!("out, {wrong}"))
}

/// Calls with a longer out, with a shorter one and with an empty one: how the engine
/// differs from the text that is due, if it does.
pub fn compare(
    engine: &Engine,
    random: &mut Random,
    input: &[u8],
    text: &[u8],
) -> Result<(), String> {
    let length = text.len();
    let longer = length + [0, 1, random.below(300)][random.below(3)];
    let shorter = [1, length - 1, random.below(length)][random.below(3)];
    let mut rooms = [longer, shorter, 0].into_iter();
    rooms.try_for_each(|room| call(engine, random, input, text, room))
}

/// The text that an engine writes.
pub fn written(engine: &Engine, input: &[u8]) -> Vec<u8> {
    let mut out = vec![0; board_shrink_most()];
    let length = (engine.shrink)(input, &mut out);
    out.truncate(length);
    out
}

/// The numbers that a text says; none if it is a refusal.
pub fn numbers(text: &[u8]) -> Option<Vec<usize>> {
    let lines = std::str::from_utf8(text).ok()?.lines();
    lines.map(|line| line.parse().ok()).collect()
}

/// Whether the numbers keep the promise: they rise up to the last step's, which answers
/// as in the whole rehearsal, and no longer so without any other one of them.
pub fn check(input: &[u8], numbers: &[usize]) -> Result<(), String> {
    let (table, end) = read_front(input).map_err(|refusal| format!("{refusal:?}"))?;
    let steps: Vec<&[u8]> = input[end..].chunks(STEP_LENGTH).collect();
    if numbers.windows(2).any(|pair| pair[0] >= pair[1]) || numbers.first() == Some(&0) {
        return Err("the numbers do not rise from 1".to_string());
    }
    if numbers.last() != Some(&steps.len()) {
        return Err("the last step is not kept".to_string());
    }
    let kept: Vec<&[u8]> = numbers.iter().map(|number| steps[number - 1]).collect();
    let last = last_answer(&table, &steps);
    if last_answer(&table, &kept) != last {
        return Err("another last answer".to_string());
    }
    let needless = (0..kept.len() - 1).find(|at| {
        let without = [&kept[..*at], &kept[at + 1..]].concat();
        last_answer(&table, &without) == last
    });
    needless.map_or(Ok(()), |at| Err(format!("step {} is not needed", numbers[at])))
}

/// The answer to the last of these steps, from the fresh state on.
fn last_answer(table: &Table, steps: &[&[u8]]) -> Option<u8> {
    let mut state = State::fresh(table);
    steps.iter().map(|bytes| step(table, &mut state, bytes)).last()
}
