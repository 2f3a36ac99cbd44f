//! Whole rehearsals, new ones in each run: the same report, and the state that
//! fresh and step lead to.

use engine::altered::must_be_found;
use engine::layout::{encode, LENGTH};
use engine::lent::Lent;
use engine::wrong_reports::{RIGHT_REPORT, WRONG_REPORTS};
use engine::wrong_totals::{RIGHT_TOTALS, WRONG_ITEMS, WRONG_POSTS, WRONG_RECEIPTS};
use engine::{board_report_most, Engine, ENGINES, PLAIN};
use inputs::answers::Answers;
use inputs::kinds::{rehearsal, round};
use inputs::random::{run_seed, Random};
use inputs::rehearsed::Rehearsed;
use reference::report::rehearse;

/// So many rounds, each of all kinds.
const ROUNDS: usize = 10;

/// What the reference has for an input.
struct Expected {
    report: Vec<u8>,
    /// None if the input is refused.
    state: Option<Vec<u8>>,
}

impl Expected {
    fn of(rehearsed: &Rehearsed) -> Expected {
        let state = rehearsed.outcome.as_ref().ok().map(|outcome| encode(&outcome.state));
        Expected { report: rehearse(rehearsed.input), state }
    }
}

/// The first thing that goes wrong in a call with buffers of these lengths.
fn call(
    engine: &Engine,
    random: &mut Random,
    input: &[u8],
    expected: &Expected,
    state_length: usize,
    room: usize,
) -> Result<(), String> {
    let mut state = Lent::random(random, state_length);
    let mut out = Lent::random(random, room);
    let (mut state_after, mut out_after) = (state.clone(), out.clone());
    // 14 comes after what is refused of the input.
    let unfit = state_length != LENGTH && expected.state.is_some();
    let report = if unfit { b"refused 14\n" } else { expected.report.as_slice() };
    if !unfit {
        expected.state.iter().for_each(|bytes| state_after.write(bytes));
    }
    out_after.write(report);
    let length = report.len();
    let answer = (engine.rehearse)(input, state.part(), out.part());
    if answer != length {
        return Err(format!("length {answer}, not {length}"));
    }
    out.compare(&out_after).map_err(|wrong| format!("out, {wrong}"))?;
    state.compare(&state_after).map_err(|wrong| format!("state, {wrong}"))
}

/// The state that fresh and a step call for each step lead to.
fn stepped(engine: &Engine, rehearsed: &Rehearsed) -> Option<Vec<u8>> {
    let outcome = rehearsed.outcome.as_ref().ok()?;
    let (table, mut state) = (&rehearsed.input[..outcome.end], vec![0xA5; LENGTH]);
    (engine.fresh)(table, &mut state);
    for (step, _) in rehearsed.calls() {
        (engine.step)(table, &mut state, step);
    }
    Some(state)
}

/// Calls with a longer out and, now and then, with a shorter one and with a
/// state of a wrong length.
fn compare(
    engine: &Engine,
    random: &mut Random,
    rehearsed: &Rehearsed,
    expected: &Expected,
) -> Result<(), String> {
    let (input, length) = (rehearsed.input, expected.report.len());
    let longer = length + random.below(300);
    call(engine, random, input, expected, LENGTH, longer)?;
    if random.once_in(3) {
        let shorter = [0, 1, length - 1, random.below(length)][random.below(4)];
        call(engine, random, input, expected, LENGTH, shorter)?;
    }
    if random.once_in(3) {
        let wrong = [0, LENGTH - 1, LENGTH + 1][random.below(3)];
        call(engine, random, input, expected, wrong, longer)?;
    }
    if stepped(engine, rehearsed) != expected.state {
        return Err("the state differs from that after fresh and each step".to_string());
    }
    Ok(())
}

/// How an engine differs, if one does.
fn compare_all(number: usize, seed: u64, rehearsed: &Rehearsed) -> Result<(), String> {
    let expected = Expected::of(rehearsed);
    let length = expected.report.len();
    if length > board_report_most() {
        return Err(format!("a report of {length} bytes, more than board_report_most"));
    }
    ENGINES.iter().try_for_each(|engine| {
        let wrong = compare(engine, &mut Random::new(!seed, number), rehearsed, &expected);
        wrong.map_err(|wrong| format!("{}, {wrong}", engine.name))
    })
}

/// The input's bytes, shortened.
fn hex(input: &[u8]) -> String {
    let digits: String = input.iter().take(2_000).map(|byte| format!("{byte:02x}")).collect();
    if input.len() > 2_000 {
        digits + "..."
    } else {
        digits
    }
}

/// The comparison can fail: a report with one other byte is found.
#[test]
fn another_report_is_found() {
    let input = rehearsal(1, 0).1;
    let rehearsed = Rehearsed::new(&input);
    let expected = Expected::of(&rehearsed);
    let wrong = Engine {
        rehearse: |input, state, out| {
            let length = (PLAIN.rehearse)(input, state, out);
            out[length / 2] ^= 1;
            length
        },
        ..PLAIN
    };
    let compare = |engine| compare(engine, &mut Random::new(1, 0), &rehearsed, &expected);
    assert_eq!((compare(&PLAIN).is_ok(), compare(&wrong).is_err()), (true, true));
}

/// Weights that are shown for numbers of peers are found, and what is counted wrong at the
/// foot.
#[test]
fn every_wrong_report_is_found() {
    let wrong = [&WRONG_REPORTS[..], &WRONG_POSTS, &WRONG_RECEIPTS, &WRONG_ITEMS].concat();
    let right = [RIGHT_REPORT, RIGHT_TOTALS];
    let times = found(run_seed(), &[&wrong[..], &right].concat());
    wrong.iter().zip(&times).for_each(|(engine, times)| must_be_found(engine.name, *times));
    assert_eq!(times[wrong.len()..], [0; 2]);
}

/// In how many rehearsals of the first round each engine differs.
fn found(seed: u64, engines: &[Engine]) -> Vec<usize> {
    let mut times = vec![0; engines.len()];
    for number in 0..round() {
        let input = rehearsal(seed, number).1;
        let expected = Expected::of(&Rehearsed::new(&input));
        let (room, random) = (expected.report.len(), &mut Random::new(seed, 0));
        for (at, engine) in engines.iter().enumerate() {
            let differs = call(engine, random, &input, &expected, LENGTH, room).is_err();
            times[at] += differs as usize;
        }
    }
    times
}

#[test]
fn same_reports() {
    let (seed, mut answers, mut weighted) = (run_seed(), Answers::default(), Answers::default());
    // By seasons.
    let (mut taken, mut given) = ([0; 3], [0; 3]);
    for number in 0..ROUNDS * round() {
        let (kind, input) = rehearsal(seed, number);
        let rehearsed = Rehearsed::new(&input);
        assert!((kind.fits)(&rehearsed), "seed {seed}, number {number}: not {}", kind.name);
        answers.count_all(&rehearsed);
        if let Ok(outcome) = &rehearsed.outcome {
            let season = outcome.table.season as usize;
            taken[season] += 1;
            if outcome.table.season.has_weights() {
                weighted.count_all(&rehearsed);
            }
            given[season] += outcome.answers.iter().filter(|answer| **answer == 17).count();
        }
        if let Err(wrong) = compare_all(number, seed, &rehearsed) {
            let (name, length, hex) = (kind.name, input.len(), hex(&input));
            panic!("seed {seed}, number {number}, {name}: {wrong}\ninput, {length} bytes: {hex}");
        }
    }
    println!("{} rehearsals with {} steps", ROUNDS * round(), answers.calls());
    println!("tables taken {taken:?}, shares given before {given:?}\n{answers}");
    println!("on weighted tables\n{weighted}");
    assert!(taken.iter().all(|times| *times > 500), "seed {seed}");
    assert!(given.iter().all(|times| *times > 100), "seed {seed}");
    assert_eq!(answers.wrong(), [""; 0], "seed {seed}");
    assert_eq!(weighted.wrong(), [""; 0], "seed {seed}");
}
