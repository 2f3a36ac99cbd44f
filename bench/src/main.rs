//! The proved engine beside a plain one; `bench/run` calls this.
//!
//!     bench inputs FOLDER                  writes the inputs
//!     bench times CASES                    compares the engines, then times them
//!     bench ops INPUT                      lists the ops that it has
//!     bench count ENGINE CALL INPUT [OP]   one round, for a tool that counts
//!     bench boxes INPUT                    lists the calls of the field peer
//!     bench box BOX CALL INPUT             one round of such a call, likewise
//!
//! With an op, `count` calls only its steps; CALL is `step`, or `form` for as
//! many calls without a step. With the CALL `shrink` the input is cut down once,
//! with `gain` it is a step file, which is counted once. A box uses the table of the
//! input alone.

mod check;
mod cleared;
mod counted;
mod engines;
mod fed;
mod measure;
mod ops;
mod rehearsals;
mod shown;
mod shrunk;

use cleared::CLEARED;
use counted::COUNTED;
use engine::field::PROVED_BOX;
use engine::{PLAIN, PROVED};
use fed::{Fed, PLAIN_BOX};
use inputs::answers::ROWS;
use measure::{best_times, Bench, ROUNDS};
use rehearsals::{rehearsals, Rehearsal};
use shrunk::SHRUNK;
use std::collections::BTreeMap;
use std::fs;
use std::path::Path;

/// More bytes than any report has.
const OUT: usize = 1 << 18;

/// The table and the steps of an input.
fn parts(input: &[u8]) -> (&[u8], Vec<&[u8]>) {
    let (_, end) = reference::table::read_front(input).expect("a valid table");
    (&input[..end], input[end..].chunks(reference::form::STEP_LENGTH).collect())
}

fn main() {
    let args: Vec<String> = std::env::args().skip(1).collect();
    let args: Vec<&str> = args.iter().map(String::as_str).collect();
    match args[..] {
        ["inputs", folder] => write_inputs(Path::new(folder)),
        ["times", cases] => print_times(Path::new(cases)),
        ["ops", input] => print_ops(&read(input)),
        ["count", engine, call, input] => count(engine, call, input, None),
        ["count", engine, call, input, op] => count(engine, call, input, op.parse().ok()),
        ["boxes", input] => with_boxes(&read(input), |fed| println!("{}", fed.name)),
        ["box", field, call, input] => count_box(field, call, &read(input)),
        _ => panic!("see the head of bench/src/main.rs"),
    }
}

fn write_inputs(folder: &Path) {
    for Rehearsal { name, input, .. } in rehearsals() {
        fs::write(folder.join(name), input).expect("a folder to write to");
    }
    let shrunk = SHRUNK.iter().map(|shrunk| (shrunk.name, shrunk.input));
    let cleared = CLEARED.iter().map(|cleared| (cleared.name, cleared.input));
    let counted = COUNTED.iter().map(|counted| (counted.name, counted.steps));
    for (name, input) in shrunk.chain(cleared).chain(counted) {
        fs::write(folder.join(name), input()).expect("a folder to write to");
    }
}

fn read(input: &str) -> Vec<u8> {
    fs::read(input).expect("an input")
}

/// Runs one round and prints how many calls it had.
fn count(engine: &str, call: &str, input: &str, op: Option<u8>) {
    let engine = engines::by_name(engine).expect("plain, proved or none");
    let input = read(input);
    let calls = match op {
        Some(op) => ops::round(&engine, op, call == "form", &input),
        None if call == "shrink" => shrunk::round(&engine, &input),
        None if call == "gain" => counted::round(&engine, &input),
        None => Bench::over(&input).round(&engine, call),
    };
    println!("{calls}");
}

/// Does something with each call of the field peer, on the table of an input.
fn with_boxes(input: &[u8], each: impl FnMut(&Fed)) {
    let text = parts(input).0;
    let table = reference::table::read_table(text).expect("a valid table");
    Fed::all(text, &table).iter().for_each(each);
}

/// Runs one round of a call of the field peer and prints how many calls it had.
fn count_box(field: &str, call: &str, input: &[u8]) {
    let field = fed::by_name(field).expect("plain, proved or none");
    with_boxes(input, |fed| {
        if fed.name == call {
            println!("{}", fed.round(&field));
        }
    });
}

fn print_times(cases: &Path) {
    println!("cases: {} reports as stored, from both engines", check::cases(cases));
    for Rehearsal { name, input, calls } in rehearsals() {
        let answers = check::input(&input);
        println!("\n{name}: {} bytes, {} steps", input.len(), answers.len());
        print_mix(&input, &answers);
        print_head("nanoseconds");
        let mut bench = Bench::over(&input);
        for call in calls {
            print_row(call, bench.times(call));
        }
    }
    print_boxes();
    print_shrunk();
    print_cleared();
    print_counted();
}

/// The field peer, with four peers and with sixteen.
fn print_boxes() {
    for Rehearsal { name, input, .. } in rehearsals().iter().take(2) {
        println!();
        print_head(&format!("box, {name}, nanoseconds"));
        with_boxes(input, |fed| {
            fed.check();
            print_row(
                fed.name,
                best_times(ROUNDS, [PLAIN_BOX, PROVED_BOX], |field| fed.round(field)),
            );
        });
    }
}

fn print_shrunk() {
    println!();
    for shrunk in &SHRUNK {
        let [steps, left] = check::shrunk(shrunk);
        println!("{}: {steps} steps, {left} left", shrunk.name);
    }
    print_head("shrink, milliseconds");
    for shrunk in &SHRUNK {
        let input = (shrunk.input)();
        let times =
            best_times(shrunk::ROUNDS, [PLAIN, PROVED], |engine| shrunk::round(engine, &input));
        print_row(shrunk.name, times.map(|nanoseconds| nanoseconds / 1e6));
    }
}

/// Clears are counted in instructions alone.
fn print_cleared() {
    println!();
    for cleared in &CLEARED {
        let entries = check::cleared(cleared).into_iter();
        let told: Vec<String> =
            entries.map(|[before, after]| format!("{before} to {after}")).collect();
        println!("{}: entries {}", cleared.name, told.join(", "));
    }
}

fn print_counted() {
    println!();
    for counted in &COUNTED {
        let [steps, gain] = check::counted(counted);
        println!("{}: {steps} steps, gain {gain}", counted.name);
    }
    print_head("gain, microseconds");
    for counted in &COUNTED {
        let steps = (counted.steps)();
        let times =
            best_times(counted::ROUNDS, [PLAIN, PROVED], |engine| counted::round(engine, &steps));
        print_row(counted.name, times.map(|nanoseconds| nanoseconds / 1e3));
    }
}

fn print_head(what: &str) {
    println!("{what:30} {:>10} {:>10} {:>7}", "plain", "proved", "ratio");
}

fn print_row(name: &str, [plain, proved]: [f64; 2]) {
    println!("{name:30} {plain:10.1} {proved:10.1} {:7.2}", proved / plain);
}

/// The ops that there are: number, name, and how many steps.
fn by_op(input: &[u8]) -> Vec<(u8, &'static str, usize)> {
    let steps = parts(input).1;
    let times = |op: u8| steps.iter().filter(|given| given[0] == op).count();
    let rows = ROWS.iter().map(|row| (row.op, row.name, times(row.op)));
    rows.filter(|row| row.2 > 0).collect()
}

fn print_ops(input: &[u8]) {
    for (op, name, times) in by_op(input) {
        println!("{op} {name} ({times})");
    }
}

/// The ops that there are, and the answers that they got.
fn print_mix(input: &[u8], answers: &[u8]) {
    let there = by_op(input).into_iter();
    let named: Vec<String> = there.map(|(_, name, times)| format!("{name} {times}")).collect();
    println!("steps: {}", named.join(", "));
    let mut times: BTreeMap<u8, usize> = BTreeMap::new();
    answers.iter().for_each(|answer| *times.entry(*answer).or_default() += 1);
    let taken = 100.0 * times.remove(&0).unwrap_or(0) as f64 / answers.len() as f64;
    let told = times.iter().map(|(answer, times)| format!("{answer}: {times}"));
    let refused: Vec<String> = told.collect();
    println!("taken {taken:.1}%; refused with {}", refused.join(", "));
}
