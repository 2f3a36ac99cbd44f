//! Boards written as sheets, from lent states of every sort: the same answers
//! and bytes, and nothing else written.

use engine::altered::{is_audit, must_be_found, table_with};
use engine::layout::*;
use engine::pair::Pair;
use engine::row14::is_state;
use engine::sheets::Writing;
use engine::{board_sheet_most, Engine, WriteSheet, PLAIN};
use inputs::damaged::damaged_table;
use inputs::random::{run_seed, Random};
use inputs::tables::{random_table, Shape};
use reference::season::SEASONS;
use reference::state::{Board, Entry, State};
use reference::table::{read_table, write_table_of};
use std::collections::BTreeMap;

/// The length of the longest sheet: 2 + 4 · 64 + 64 · 37.
const MOST: usize = 2_626;

/// A table and a state with a board of one period, and with none of another.
struct Lender {
    pair: Pair,
    shown: u8,
    bare: u8,
}

impl Lender {
    fn random(random: &mut Random) -> Lender {
        let shape = Shape { periods: random.between(2, 8), ..Shape::random(random, 16) };
        let mut pair = Pair::fresh(shape.table(random));
        pair.stuff(random, 40);
        let (periods, shown) = (pair.table.periods, random.below(pair.table.periods));
        let bare = (shown + random.between(1, periods - 1)) % periods;
        let is_bare =
            |entry: &Entry| matches!(entry, Entry::Board { period, .. } if *period == bare);
        pair.state.bag.retain(|entry| !is_bare(entry));
        let board = (0..pair.table.m()).filter(|_| random.chance(60)).collect();
        pair.state.enter(Entry::Board { period: shown, board }).expect("room in the bag");
        pair.buffer = encode(&pair.state);
        Lender { pair, shown: shown as u8, bare: bare as u8 }
    }

    /// The bytes of the sheet that is shown.
    fn sheet(&self) -> Vec<u8> {
        writing(&self.pair, self.shown).expected(MOST).expect("a board that is shown")
    }

    /// Bytes that are no state of the table: another length, a flag or a counter
    /// out of range, or an unused byte that is not 0.
    fn no_state(&self, random: &mut Random) -> Vec<u8> {
        let mut bytes = self.pair.buffer.clone();
        match random.below(6) {
            0 => bytes.clear(),
            1 => bytes.truncate(LENGTH - 1),
            2 => bytes.push(0),
            3 => bytes[DOWN] = 2,
            4 => bytes[NEXT] = bytes[OPEN] + 1,
            _ => bytes[LENGTH - 1] = 1,
        }
        assert!(!is_state(&self.pair.table, &bytes));
        bytes
    }
}

fn writing(pair: &Pair, period: u8) -> Writing<'_> {
    Writing { table: &pair.text, state: &pair.buffer, period }
}

/// What is wrong with a call.
#[derive(Clone, Copy, Debug)]
struct Faults {
    /// 1 to 4, or 0 for none.
    table: u8,
    state: bool,
    /// 6 or 10, or 0 for none.
    period: u8,
    short: bool,
}

impl Faults {
    /// Every combination.
    fn all() -> impl Iterator<Item = Faults> {
        (0..60).map(|k: u8| {
            let period = [0, 6, 10][k as usize / 2 % 3];
            Faults { table: k / 12, state: k / 6 % 2 == 1, period, short: k % 2 == 1 }
        })
    }

    /// The first in document 02's order.
    fn first(self) -> u8 {
        match self {
            Faults { table: 1.., .. } => self.table,
            Faults { state: true, .. } => 14,
            Faults { period: 1.., .. } => self.period,
            Faults { short: true, .. } => 16,
            _ => 0,
        }
    }

    /// The answer to a call with these faults and no others.
    fn call(self, random: &mut Random) -> u8 {
        let lender = Lender::random(random);
        let table = match self.table {
            0 => lender.pair.text.clone(),
            number => refused_table(random, number),
        };
        let state = if self.state { lender.no_state(random) } else { lender.pair.buffer.clone() };
        let end = lender.pair.table.periods;
        let period = match self.period {
            0 => lender.shown,
            6 => [end, 8, random.between(end, 255)][random.below(3)] as u8,
            _ => lender.bare,
        };
        let length = lender.sheet().len();
        let room = if self.short { random.below(length) } else { length + random.below(20) };
        Writing { table: &table, state: &state, period }.call(random, room)
    }
}

fn refused_table(random: &mut Random, number: u8) -> Vec<u8> {
    loop {
        let table = damaged_table(random);
        if read_table(&table).is_err_and(|refusal| refusal.number() == number) {
            return table;
        }
    }
}

/// Whatever is wrong at once, the first is answered.
#[test]
fn every_order_of_refusals() {
    let (seed, mut seen) = (run_seed(), BTreeMap::<u8, usize>::new());
    for number in 0..60 {
        let mut random = Random::new(seed, number);
        for faults in Faults::all() {
            let answer = faults.call(&mut random);
            assert_eq!(answer, faults.first(), "seed {seed}, number {number}: {faults:?}");
            *seen.entry(answer).or_default() += 1;
        }
    }
    println!("answers {seen:?}");
    let answers: Vec<u8> = seen.into_keys().collect();
    assert_eq!(answers, [0, 1, 2, 3, 4, 6, 10, 14, 16]);
}

/// Whether the period's first board is followed by another of the period, and
/// whether a board of another period stands between them.
fn several(state: &State, period: usize) -> [bool; 2] {
    let boards = state.boards();
    let is_of = |(q, _): &(usize, Board)| *q == period;
    let from = boards.iter().position(is_of).unwrap_or(boards.len());
    let next = boards.iter().skip(from + 1).position(is_of);
    [next.is_some(), next.is_some_and(|between| between > 0)]
}

/// Of two boards of a period the first, in bags of every sort.
#[test]
fn the_first_board_of_each_period() {
    let (seed, mut seen, mut two) = (run_seed(), BTreeMap::<u8, usize>::new(), [0; 2]);
    for number in 0..600 {
        let mut random = Random::new(seed, number);
        let mut pair = Pair::fresh(random_table(&mut random, 16));
        pair.stuff(&mut random, [10, 40, 800][number % 3]);
        for period in (0..=pair.table.periods as u8).chain([8, 255]) {
            let answer = writing(&pair, period).call(&mut random, MOST);
            *seen.entry(answer).or_default() += 1;
            let several = several(&pair.state, period as usize);
            (0..2).for_each(|k| two[k] += several[k] as usize);
        }
    }
    let [any, apart] = two;
    println!("answers {seen:?}; of two boards {any}, with another period's between {apart}");
    assert!([0, 6, 10].iter().all(|answer| seen[answer] > 50) && any > 100 && apart > 100);
}

/// All bytes of a board's sheet and some more as a buffer, and every shorter one.
fn every_room(random: &mut Random, pair: &Pair, period: u8, length: usize) {
    for room in 0..=length + 3 {
        let answer = writing(pair, period).call(random, room);
        assert_eq!(answer, if room < length { 16 } else { 0 }, "room {room} for {length}");
    }
}

#[test]
fn buffers_of_every_length() {
    let (seed, mut lengths) = (run_seed(), Vec::new());
    for number in 0..60 {
        let mut random = Random::new(seed, number);
        let lender = Lender::random(&mut random);
        lengths.push(lender.sheet().len());
        every_room(&mut random, &lender.pair, lender.shown, lengths[number]);
    }
    println!("sheets of {lengths:?} bytes");
    assert!(lengths.iter().any(|length| *length > 100));
}

/// 64 votes of 32 preferences are the longest sheet, of every season.
#[test]
fn the_longest() {
    let seed = run_seed();
    let mut random = Random::new(seed, 0);
    let vote =
        |k: u32, random: &mut Random| [&k.to_be_bytes()[..], &[1], &random.bytes(32)].concat();
    let items: Vec<Vec<u8>> = (0..64).map(|k| vote(k, &mut random)).collect();
    for season in SEASONS {
        let mut pair = Pair::fresh(write_table_of(season, 16, 11, 0xFFFF, 8, &items));
        let board = Entry::Board { period: 7, board: (0..64).collect() };
        pair.state.enter(board).expect("a fresh bag");
        pair.buffer = encode(&pair.state);
        let sheet = writing(&pair, 7).expected(MOST).expect("a board");
        assert_eq!((sheet.len(), board_sheet_most()), (MOST, MOST));
        every_room(&mut random, &pair, 7, MOST);
    }
}

/// The comparison can fail: each of these writers differs somewhere.
#[test]
fn every_wrong_writer_is_found() {
    let seed = run_seed();
    let writers: [(&str, WriteSheet); 5] = [
        ("all refused", |_, _, _, _, _| 16),
        ("place 0 for all", |table, state, period, sheet, length| {
            let alter = |text: &mut Vec<u8>| {
                if is_audit(text, 1) {
                    text[5] = 0;
                }
            };
            plain::write_sheet(&table_with(table, alter), state, period, sheet, length)
        }),
        ("a byte after the sheet", |table, state, period, sheet, length| {
            let answer = plain::write_sheet(table, state, period, sheet, length);
            sheet.last_mut().into_iter().for_each(|byte| *byte = 0);
            answer
        }),
        ("a length when refused", |table, state, period, sheet, length| {
            *length = 0;
            plain::write_sheet(table, state, period, sheet, length)
        }),
        ("the last board", |table, state, period, sheet, length| {
            let mut bytes = state.to_vec();
            if state.len() == LENGTH && count(state) <= 256 {
                let entries = ENTRIES..ENTRIES + ENTRY_LENGTH * count(state);
                bytes[entries].as_chunks_mut::<ENTRY_LENGTH>().0.reverse();
            }
            plain::write_sheet(table, &bytes, period, sheet, length)
        }),
    ];
    for (name, write_sheet) in writers {
        let engine = Engine { name, write_sheet, ..PLAIN };
        let found = (0..200).filter(|number| {
            let mut random = Random::new(seed, *number);
            let lender = Lender::random(&mut random);
            let writing = writing(&lender.pair, [lender.shown, lender.bare][number % 2]);
            writing.compare(&engine, &mut random, MOST, &writing.expected(MOST)).is_err()
        });
        must_be_found(name, found.count());
    }
}
