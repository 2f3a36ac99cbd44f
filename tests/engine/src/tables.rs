//! The engines beside the reference on tables: judged, and fresh states made.

use crate::layout::LENGTH;
use crate::{Engine, ENGINES};
use reference::table::read_table;

/// The answer to a fresh call on a buffer of that length.
pub fn expected(table: &[u8], length: usize) -> u8 {
    match read_table(table) {
        Err(refusal) => refusal.number(),
        Ok(_) if length != LENGTH => 14,
        Ok(_) => 0,
    }
}

/// The answer of all to a table alone.
pub fn same_answer(text: &[u8]) -> u8 {
    let answer = expected(text, LENGTH);
    for engine in ENGINES {
        assert_eq!((engine.check_table)(text), answer, "{}: table {text:?}", engine.name);
    }
    answer
}

/// Both calls on a part of some dirty bytes. What is around that part is never
/// written, and the part itself only by a fresh call that is taken.
pub fn compare(engine: &Engine, text: &[u8], length: usize, dirty: &[u8], any_step: &[u8]) {
    let answer = expected(text, length);
    let place = format!("{}: table {text:?}, length {length}", engine.name);
    let mut bytes = dirty.to_vec();
    let step_answer = (engine.step)(text, &mut bytes[16..16 + length], any_step);
    let dirty_answer = if answer == 0 { 14 } else { answer };
    assert_eq!(step_answer, dirty_answer, "{place}, step {any_step:?}");
    assert!(bytes == dirty, "{place}: a refused step wrote");

    let table_answer = if answer == 14 { 0 } else { answer };
    assert_eq!((engine.check_table)(text), table_answer, "{place}: the table alone");
    assert_eq!((engine.fresh)(text, &mut bytes[16..16 + length]), answer, "{place}");
    let mut after = dirty.to_vec();
    if answer == 0 {
        after[16..16 + length].fill(0);
    }
    assert!(bytes == after, "{place}: fresh wrote something else");
}
