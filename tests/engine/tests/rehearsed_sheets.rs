//! The boards of random rehearsals, written as sheets and read back: each is the
//! reference's sheet, and reads as the board that the report shows.

use engine::altered::is_audit;
use engine::layout::LENGTH;
use engine::{board_report_most, board_sheet_most, Engine, ENGINES};
use inputs::kinds::{rehearsal, round};
use inputs::random::run_seed;
use inputs::rehearsed::{Outcome, Rehearsed};
use inputs::tables::{number, pair_at};
use reference::sheet::sheet_of_board;
use std::collections::BTreeMap;

/// So many rounds, each of all kinds.
const ROUNDS: usize = 10;

/// The items of each period's first board, by a report's lines.
fn shown(report: &[u8]) -> BTreeMap<u8, Vec<u8>> {
    let lines = std::str::from_utf8(report).expect("a report in ASCII").lines();
    let mut boards = BTreeMap::new();
    for fields in lines.filter_map(|line| line.strip_prefix("board ")) {
        let mut numbers = fields.split(' ').map(|field| field.parse().expect("a number"));
        let period = numbers.next().expect("a period");
        boards.entry(period).or_insert(numbers.collect());
    }
    boards
}

/// The text of an item of a table.
fn text(table: &[u8], item: u8) -> Vec<u8> {
    let pair = pair_at(table, item as usize);
    let [offset, length] = [0, 2].map(|at| number(table, pair + at));
    table[offset..offset + length].to_vec()
}

/// The sheet that an engine writes, or its refusal.
fn written(engine: &Engine, table: &[u8], state: &[u8], period: u8) -> Result<Vec<u8>, u8> {
    let (mut sheet, mut length) = (vec![0xA5; board_sheet_most()], 0);
    match (engine.write_sheet)(table, state, period, &mut sheet, &mut length) {
        0 => Ok(sheet[..length].to_vec()),
        number => Err(number),
    }
}

/// The texts that an engine reads, or its refusal.
fn read(engine: &Engine, sheet: &[u8]) -> Result<Vec<Vec<u8>>, u8> {
    let answer = (engine.check_sheet)(sheet);
    let (mut texts, mut offset, mut length) = (Vec::new(), 0, 0);
    for item in 0..=255 {
        match (engine.sheet_item)(sheet, item, &mut offset, &mut length) {
            0 if answer == 0 => texts.push(sheet[offset..offset + length].to_vec()),
            6 if answer == 0 => break,
            number => return Err(number),
        }
    }
    Ok(texts)
}

/// What the rehearsals had, over all engines.
#[derive(Debug, Default)]
struct Seen {
    answers: BTreeMap<u8, usize>,
    /// The items of all boards, the most of one, and the boards without any.
    items: usize,
    most: usize,
    empty: usize,
    /// Audits that were read, without a place and with one.
    audits: [usize; 2],
}

impl Seen {
    /// A board that was read.
    fn add(&mut self, texts: &[Vec<u8>]) {
        self.items += texts.len();
        self.most = self.most.max(texts.len());
        self.empty += texts.is_empty() as usize;
        for more in [0, 1] {
            self.audits[more] += texts.iter().filter(|text| is_audit(text, more)).count();
        }
    }
}

/// Each period's sheet from an engine, beside the reference's sheet and the board
/// that the engine's report shows.
fn compare(
    engine: &Engine,
    input: &[u8],
    outcome: &Outcome,
    seen: &mut Seen,
) -> Result<(), String> {
    let (mut state, mut out) = (vec![0; LENGTH], vec![0; board_report_most()]);
    let length = (engine.rehearse)(input, &mut state, &mut out);
    let (table, boards) = (&input[..outcome.end], shown(&out[..length]));
    for period in 0..=8 {
        let sheet = written(engine, table, &state, period);
        let expected = sheet_of_board(&outcome.table, &outcome.state, period as usize, usize::MAX);
        if sheet != expected.map_err(|refusal| refusal.number()) {
            return Err(format!("period {period}: another sheet, {sheet:?}"));
        }
        *seen.answers.entry(sheet.as_ref().err().copied().unwrap_or(0)).or_default() += 1;
        let items = boards.get(&period);
        let texts = items.map(|items| items.iter().map(|item| text(table, *item)).collect());
        let read = sheet.ok().map(|sheet| read(engine, &sheet));
        if read != texts.map(Ok) {
            return Err(format!("period {period}: the sheet does not read as {items:?}"));
        }
        read.into_iter().flatten().for_each(|texts| seen.add(&texts));
    }
    Ok(())
}

#[test]
fn boards_as_shown() {
    let (seed, mut seen) = (run_seed(), Seen::default());
    for number in 0..ROUNDS * round() {
        let (kind, input) = rehearsal(seed, number);
        let Ok(outcome) = Rehearsed::new(&input).outcome else {
            continue;
        };
        for engine in ENGINES {
            if let Err(wrong) = compare(&engine, &input, &outcome, &mut seen) {
                panic!("seed {seed}, number {number}, {}, {}: {wrong}", kind.name, engine.name);
            }
        }
    }
    println!("{seen:?}");
    assert!([0, 6, 10].iter().all(|answer| seen.answers[answer] > 1_000));
    assert!(seen.items > 4_000 && seen.most > 20 && seen.empty > 100);
    assert!(seen.audits.iter().all(|times| *times > 200));
}
