//! That both engines do on the inputs what the reference does, before anything
//! is timed. The gate compares them on many more.

use crate::cleared::Cleared;
use crate::counted::Counted;
use crate::shown::Shown;
use crate::shrunk::Shrunk;
use crate::{parts, OUT};
use engine::layout::{encode, LENGTH};
use engine::pair::Pair;
use engine::sheets::{Reading, Writing};
use engine::shrunk::written;
use engine::{Engine, ENGINES};
use inputs::random::Random;
use inputs::rehearsed::Rehearsed;
use reference::form::STEP_LENGTH;
use reference::gain::gain;
use reference::report::rehearse;
use std::path::Path;

/// The answers to the input's steps, the same from all, with the same states; and
/// the same sheet of it.
pub fn input(bytes: &[u8]) -> Vec<u8> {
    let answers = steps(bytes);
    sheet(&Shown::over(parts(bytes).0, bytes));
    answers
}

/// The answers alone, and the report.
fn steps(bytes: &[u8]) -> Vec<u8> {
    let rehearsed = Rehearsed::new(bytes);
    let outcome = rehearsed.outcome.as_ref().expect("a valid table");
    let mut pair = Pair::fresh(bytes[..outcome.end].to_vec());
    rehearsed.calls().for_each(|(step, answer)| assert_eq!(pair.call(step), answer));
    report(bytes, &rehearse(bytes), Some(encode(&outcome.state)));
    outcome.answers.clone()
}

/// The same answers to an input that ends with clears, which are all taken; the
/// entries before each of them and after it.
pub fn cleared(cleared: &Cleared) -> Vec<[usize; 2]> {
    let (answers, entries) = (steps(&(cleared.input)()), cleared.entries());
    let last = &answers[answers.len() - entries.len()..];
    assert!(last.iter().all(|answer| *answer == 0), "{}: a clear is refused", cleared.name);
    entries
}

/// Each engine counts what the reference does; how many steps there are, and the count.
pub fn counted(Counted { name, steps }: &Counted) -> [usize; 2] {
    let steps = steps();
    let expected = gain(&steps);
    for engine in ENGINES {
        assert_eq!((engine.gain)(&steps), expected, "{}: {name}", engine.name);
    }
    [steps.len() / STEP_LENGTH, expected]
}

/// The sheet that is measured: each engine writes it, and reads its 64 items.
fn sheet(shown: &Shown) {
    let Shown { table, state, period, sheet, .. } = shown;
    let writing = Writing { table, state, period: *period };
    let expected = writing.expected(sheet.len());
    assert!(expected.as_ref() == Ok(sheet) && sheet[1] == 64, "another sheet");
    let (random, items) = (&mut Random::new(1, 0), Vec::from_iter(0..=255));
    for engine in ENGINES {
        let written = writing.compare(&engine, random, sheet.len(), &expected);
        let read = Reading::of(sheet).compare(&engine, random, &items);
        written.and(read).unwrap_or_else(|wrong| panic!("{}: {wrong}", engine.name));
    }
}

/// The stored reports of the cases; how many there are.
pub fn cases(folder: &Path) -> usize {
    let mut count = 0;
    for file in std::fs::read_dir(folder).expect("the folder of cases") {
        let path = file.expect("a file").path();
        if path.extension().is_some_and(|end| end == "bin") {
            let stored = std::fs::read(path.with_extension("out")).expect("a stored report");
            report(&std::fs::read(&path).expect("a case"), &stored, None);
            count += 1;
        }
    }
    count
}

/// Each engine gives the report and, if it is known, leaves the state.
fn report(input: &[u8], expected: &[u8], after: Option<Vec<u8>>) {
    for Engine { name, rehearse, .. } in ENGINES {
        let (mut state, mut out) = (vec![0; LENGTH], vec![0; OUT]);
        let length = rehearse(input, &mut state, &mut out);
        assert!(out[..length] == *expected, "{name}: another report");
        assert!(after.as_ref().is_none_or(|after| *after == state), "{name}: another state");
    }
}

/// Each engine leaves the steps that must be left; how many there were, and are.
pub fn shrunk(Shrunk { name, input, left }: &Shrunk) -> [usize; 2] {
    let (input, left) = (input(), left());
    let expected: String = left.iter().map(|number| format!("{number}\n")).collect();
    for engine in ENGINES {
        let text = written(&engine, &input);
        assert!(text == expected.as_bytes(), "{}: {name}: other steps", engine.name);
    }
    [parts(&input).1.len(), left.len()]
}
