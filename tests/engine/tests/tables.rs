//! Tables of every sort and buffers of every length: the same refusals, and
//! nothing written by them.

use engine::altered::{is_audit, must_be_found, table_with};
use engine::layout::LENGTH;
use engine::tables::{compare, expected, same_answer};
use engine::wrong_readers::{CheckTable, WRONG_READERS};
use engine::{board_state_length, ENGINES};
use inputs::damaged::damaged_table;
use inputs::random::{run_seed, Random};
use inputs::seasons::{move_offsets, SORTS};
use inputs::sorts::{in_turn, Sort, Tally};
use inputs::weights;
use reference::season::{Season, SEASONS};
use std::collections::BTreeMap;

/// The answers to fresh are counted apart by what a table starts with.
#[test]
fn same_refusals() {
    assert_eq!(board_state_length(), LENGTH);
    let (seed, mut seen) = (run_seed(), SEASONS.map(|_| BTreeMap::<u8, usize>::new()));
    for number in 0..40_000 {
        let mut random = Random::new(seed, number);
        let text = damaged_table(&mut random);
        let lengths = [0, 1, LENGTH - 1, LENGTH + 1, 2 * LENGTH];
        let wrong = lengths[random.below(lengths.len())];
        let length = if random.once_in(4) { wrong } else { LENGTH };
        let dirty = vec![random.bits() as u8 | 1; length + 32];
        let any_step = vec![random.below(20) as u8; random.between(0, 20)];
        ENGINES.iter().for_each(|engine| compare(engine, &text, length, &dirty, &any_step));
        let season = Season::of(&text) as usize;
        *seen[season].entry(expected(&text, length)).or_default() += 1;
    }
    println!("answers to fresh by seasons {seen:?}");
    for seen in seen {
        assert!([0, 1, 2, 3, 4, 14].into_iter().all(|answer| seen[&answer] > 100));
    }
}

/// Every n and t at the head of a table without items, alone and with a byte
/// more, by which a header that is taken meets the next refusal; in every season, with
/// weights that are all alike. The proved engine and the plain one go by document 02's
/// rule, and without weights the independent one goes by document 01's table.
#[test]
fn every_threshold() {
    let [one, two, three, four] = [1, 2, 3, 4].map(|weight| ([0, 3], weight));
    for (mark, weight) in [([0, 2], 0), one, two, three, four] {
        all_thresholds(&mark, weight);
    }
    all_thresholds(&[], 0);
}

/// Behind what the season starts with, and before weights, or none.
fn all_thresholds(mark: &[u8], weight: u8) {
    let mut seen = BTreeMap::<u8, usize>::new();
    for (n, t) in (0..=255).flat_map(|n| (0..=255).map(move |t| (n, t))) {
        let weights = vec![weight; if weight > 0 { n as usize } else { 0 }];
        let table = [mark, &[n, t, 0, 0, 1, 0], &weights].concat();
        for text in [&table, &[&table[..], &[0]].concat()] {
            *seen.entry(same_answer(text)).or_default() += 1;
        }
    }
    // A third of W, rounded up: one threshold for 1 to 3, two for 4 to 6, and so on.
    let each = weight.max(1) as usize;
    let taken = (1..=16).map(|n| (each * n).div_ceil(3)).sum();
    assert_eq!(seen, [(0, taken), (1, 2 * (256 * 256 - taken)), (2, taken)].into());
}

/// A 0 and every second byte, before a header and before a table's end, without weights
/// and with them: all but 2 and 3 are header.
#[test]
fn every_second_byte() {
    let (pair, text) = ([0, 12, 0, 5], [0, 0, 0, 7, 2]);
    let (weights, behind) = ([1, 1, 1], [0, 15, 0, 5]);
    let rests = [
        vec![],
        pair.to_vec(),
        [&pair[..], &text].concat(),
        weights.to_vec(),
        [&weights[..], &behind].concat(),
        [&weights[..], &behind, &text].concat(),
    ];
    let mut passed = Vec::new();
    for second in 0..=255 {
        let header = [0, second, 3, 3, 0, 7, 1, 1];
        let answers = rests.clone().map(|rest| same_answer(&[&header[..], &rest].concat()));
        if answers != [1; 6] {
            passed.push((second, answers));
        }
    }
    // The pairs cut short; an item that is not there; an audit without its place. What
    // are weights to one season are offsets to the other.
    assert_eq!(passed, [(2, [2, 2, 3, 2, 2, 2]), (3, [1, 1, 1, 2, 2, 3])]);
}

/// Every sort of table that seasons make, and weights, and the answers that each must
/// get.
#[test]
fn every_sort() {
    every_sort_of(&SORTS);
    every_sort_of(&weights::SORTS);
}

fn every_sort_of(sorts: &'static [Sort]) {
    let (seed, mut seen) = (run_seed(), Tally::default());
    for number in 0..200 * sorts.len() {
        let (sort, text) = in_turn(sorts, seed, number);
        let mut random = Random::new(!seed, number);
        let dirty = vec![random.bits() as u8 | 1; LENGTH + 32];
        ENGINES.iter().for_each(|engine| compare(engine, &text, LENGTH, &dirty, &[1; 13]));
        seen.count(sort, expected(&text, LENGTH));
    }
    println!("{seen}");
    assert_eq!(seen.rare(sorts, 20), [""; 0], "seed {seed}");
    assert_eq!(seen.foreign(sorts), [""; 0], "seed {seed}");
}

/// The verdict on a table in which audits with so many bytes behind their kind are
/// altered, if it is of the season.
fn altered(table: &[u8], season: Season, more: usize, alter: fn(&mut Vec<u8>)) -> u8 {
    let alter = |text: &mut Vec<u8>| {
        if Season::of(table) == season && is_audit(text, more) {
            alter(text);
        }
    };
    plain::check_table(&table_with(table, alter))
}

/// The verdict on a table whose offsets are two more, if it is of the new season.
fn moved(table: &[u8]) -> u8 {
    let mut moved = table.to_vec();
    if Season::of(table) == Season::New {
        move_offsets(&mut moved, 2);
    }
    plain::check_table(&moved)
}

/// The comparison can fail: each of these engines differs on some sort of table.
#[test]
fn every_wrong_reader_of_seasons_is_found() {
    let seed = run_seed();
    let readers: [(&str, CheckTable); 9] = [
        ("fields not shifted", |table| match table {
            [0, 2, ..] => 1,
            _ => plain::check_table(table),
        }),
        ("six bytes are a header", |table| match table {
            [0, 2, ..] if [6, 7].contains(&table.len()) => 2,
            _ => plain::check_table(table),
        }),
        ("first offset 6 + 4m", moved),
        ("second byte not looked at", |table| match table {
            [0, _, rest @ ..] => plain::check_table(&[&[0, 2], rest].concat()),
            _ => plain::check_table(table),
        }),
        ("4 for 2", |table| match table {
            [0, 4, rest @ ..] => plain::check_table(&[&[0, 2], rest].concat()),
            _ => plain::check_table(table),
        }),
        ("a place taken in an old table", |table| {
            altered(table, Season::Old, 1, |text| text.truncate(5))
        }),
        ("no place taken in a new table", |table| {
            altered(table, Season::New, 0, |text| text.push(0))
        }),
        ("places not compared", |table| altered(table, Season::New, 1, |text| text[5] = 0)),
        ("two audits from one place taken", |table| match plain::check_table(table) {
            4 if Season::of(table) == Season::New => 0,
            answer => answer,
        }),
    ];
    for (name, check_table) in readers {
        must_be_found(name, found(check_table, &SORTS, seed));
    }
}

#[test]
fn every_wrong_reader_of_weights_is_found() {
    let seed = run_seed();
    for (name, check_table) in WRONG_READERS {
        let times = [&weights::SORTS[..], &SORTS].map(|sorts| found(check_table, sorts, seed));
        must_be_found(name, times.iter().sum());
    }
}

/// On how many tables, some of each sort, a reader differs.
fn found(check_table: CheckTable, sorts: &'static [Sort], seed: u64) -> usize {
    let tables = (0..100 * sorts.len()).map(|number| in_turn(sorts, seed, number).1);
    tables.filter(|table| check_table(table) != expected(table, LENGTH)).count()
}
