//! Lent states, with bytes changed at random: 14 where row 14 says so, and
//! elsewhere the same answers and bytes as the reference's.

use engine::layout::*;
use engine::pair::{Call, Pair};
use engine::row14::is_state;
use engine::sheets::Writing;
use engine::ENGINES;
use inputs::answers::{Answers, ROWS};
use inputs::random::{run_seed, Random};
use inputs::steps::random_steps;
use inputs::tables::random_table;
use std::collections::BTreeMap;

/// Verdicts, the answers of the steps after a damage that passes, and those of
/// the writer of sheets.
#[derive(Default)]
struct Seen {
    refused: [usize; PARTS.len()],
    passed: [usize; PARTS.len()],
    answers: Answers,
    sheets: BTreeMap<u8, usize>,
}

/// The parts of the state: from one of these bytes to the next.
const PARTS: [usize; 12] =
    [POSTED, SIGNED, SHARED, RECEIPTED, HELD, DATABASES, HEARD, OPEN, NEXT, DOWN, COUNT, ENTRIES];

/// A place in some part: near what the table and the bag use, or anywhere.
fn place(random: &mut Random, pair: &Pair, part: usize) -> usize {
    let (from, to) = (PARTS[part], PARTS.get(part + 1).copied().unwrap_or(LENGTH));
    let (j, p) = (random.below(pair.table.n), random.below(pair.table.periods));
    let (i, e) = (random.below(pair.table.m()), random.below(pair.state.bag.len() + 1));
    let used = match from {
        POSTED => i / 8,
        SIGNED | SHARED => 2 * (64 * p + i),
        RECEIPTED => 8 * p + i / 8,
        HELD => 8 * (8 * j + p) + i / 8,
        DATABASES => 2 * (64 * (8 * j + p) + i),
        HEARD => 32 * j + e / 8,
        ENTRIES => ENTRY_LENGTH * e + random.below(ENTRY_LENGTH),
        _ => j,
    };
    let near = used + random.below(2);
    let anywhere = random.below(to - from);
    (from + [near, near, near, anywhere][random.below(4)]).min(to - 1)
}

/// Changes 1 to 3 bytes, or makes an entry the copy of another; says in which
/// part.
fn damage(random: &mut Random, pair: &Pair, bytes: &mut [u8]) -> usize {
    let count = pair.state.bag.len();
    if count > 1 && random.once_in(20) {
        let [from, to] = [0, 1].map(|_| ENTRIES + ENTRY_LENGTH * random.below(count));
        let length = [1, 3, ENTRY_LENGTH][random.below(3)];
        bytes.copy_within(from..from + length, to);
        return PARTS.len() - 1;
    }
    let part = random.below(PARTS.len());
    for _ in 0..random.between(1, 3) {
        let at = place(random, pair, part);
        bytes[at] = random.changed(bytes[at]);
    }
    part
}

/// A step on a damaged copy of the pair's state, and some more if it passes.
fn judge(random: &mut Random, pair: &Pair, seen: &mut Seen) {
    let mut bytes = pair.buffer.clone();
    let part = damage(random, pair, &mut bytes);
    if random.once_in(8) {
        let period = random.below(pair.table.periods) as u8;
        let writing = Writing { table: &pair.text, state: &bytes, period };
        *seen.sheets.entry(writing.call(random, 3_000)).or_default() += 1;
    }
    if is_state(&pair.table, &bytes) {
        seen.passed[part] += 1;
        return follow(random, pair, bytes, seen);
    }
    seen.refused[part] += 1;
    let step = random_steps(random, &pair.table, &pair.state).remove(0);
    let (table, before, after) = (&pair.text[..], &bytes[..], &bytes[..]);
    let call = Call { table, before, step: &step, answer: 14, after };
    if let Err(difference) = ENGINES.iter().try_for_each(|engine| call.compare(engine)) {
        let places: Vec<usize> = (0..LENGTH).filter(|at| bytes[*at] != pair.buffer[*at]).collect();
        panic!("table {table:?}, damage at {places:?}: {difference}");
    }
}

/// Further steps on a lent state that passes.
fn follow(random: &mut Random, pair: &Pair, buffer: Vec<u8>, seen: &mut Seen) {
    let state = decode(&pair.table, &buffer);
    assert!(encode(&state) == buffer);
    let mut lent = Pair { text: pair.text.clone(), table: pair.table.clone(), state, buffer };
    for _ in 0..6 {
        for step in random_steps(random, &lent.table, &lent.state).iter().take(8) {
            seen.answers.count(step, lent.call(step));
        }
    }
}

#[test]
fn same_verdicts() {
    let (seed, mut seen, mut full, mut seasons) = (run_seed(), Seen::default(), 0, [0; 3]);
    for number in 0..150 {
        let mut random = Random::new(seed, number);
        let mut pair = Pair::fresh(random_table(&mut random, [3, 6, 16][number % 3]));
        seasons[pair.table.season as usize] += 1;
        for round in 0..100 {
            if round == 50 {
                pair.stuff(&mut random, 800);
                pair.stir(&mut random);
                full += (pair.state.bag.len() == 256) as usize;
            }
            for step in random_steps(&mut random, &pair.table, &pair.state) {
                pair.call(&step);
            }
            (0..4).for_each(|_| judge(&mut random, &pair, &mut seen));
        }
    }
    println!("parts {PARTS:?}\nrefused {:?}\npassed {:?}", seen.refused, seen.passed);
    println!("answers to the writer of sheets {:?}", seen.sheets);
    println!(
        "tables by seasons {seasons:?}; {full} full bags; answers after passing\n{}",
        seen.answers
    );
    assert!(seen.refused.iter().chain(&seen.passed).all(|times| *times > 50));
    assert!([0, 10, 14].iter().all(|answer| seen.sheets[answer] > 50));
    assert!(seasons.iter().all(|tables| *tables > 20));
    let answers = ROWS.iter().flat_map(|row| row.answers);
    assert!(answers.into_iter().all(|answer| seen.answers.times(*answer) > 50) && full > 10);
}
