//! Sheets and bytes of every sort, read: the same verdicts, and the same places
//! of their items.

use engine::altered::{is_audit, must_be_found, sheet_with};
use engine::lent::Lent;
use engine::sheets::Reading;
use engine::{Engine, ENGINES, PLAIN};
use inputs::random::{run_seed, Random};
use inputs::sheets::{of_items, SORTS};
use inputs::sorts::{in_turn, Tally};

/// So many rounds, each of all sorts.
const ROUNDS: usize = 1_500;

/// The verdict on bytes that are lent; a reader leaves them as they are.
fn read(engines: &[Engine], random: &mut Random, bytes: &[u8], all: bool) -> Result<u8, String> {
    let mut lent = Lent::random(random, bytes.len());
    lent.write(bytes);
    let before = lent.clone();
    let reading = Reading::of(lent.part());
    let (answer, items) = (reading.answer(), reading.items(random, all));
    for engine in engines {
        let compared = reading.compare(engine, random, &items);
        compared.map_err(|wrong| format!("{}, {wrong}", engine.name))?;
    }
    lent.compare(&before).map_err(|wrong| format!("written, {wrong}"))?;
    Ok(answer)
}

#[test]
fn same_verdicts() {
    let (seed, mut seen) = (run_seed(), Tally::default());
    for number in 0..ROUNDS * SORTS.len() {
        let (sort, bytes) = in_turn(&SORTS, seed, number);
        let mut random = Random::new(!seed, number);
        let answer = read(&ENGINES, &mut random, &bytes, number.is_multiple_of(40));
        let answer = answer.unwrap_or_else(|wrong| {
            panic!("seed {seed}, number {number}, {}: {wrong}\nbytes {bytes:?}", sort.name)
        });
        seen.count(sort, answer);
    }
    let [read, refused] = [0, 16].map(|answer| seen.times(answer));
    println!("{read} read, {refused} refused\n{seen}");
    assert_eq!(seen.rare(&SORTS, 20), [""; 0], "seed {seed}");
    assert!(read > 5_000 && refused > 20_000);
}

/// Every beginning of a sheet, with the rest still behind it.
#[test]
fn beginnings() {
    let (seed, mut read) = (run_seed(), 0);
    for number in 0..200 {
        let mut random = Random::new(seed, number);
        let bytes = of_items(&mut random, number % 65);
        for length in 0..=bytes.len() {
            let reading = Reading::of(&bytes[..length]);
            let items = reading.items(&mut random, false);
            for engine in ENGINES {
                let compared = reading.compare(&engine, &mut random, &items[..2]);
                compared.unwrap_or_else(|wrong| {
                    panic!("{}, {length} bytes of {bytes:?}: {wrong}", engine.name)
                });
            }
            read += (reading.answer() == 0) as usize;
        }
    }
    assert_eq!(read, 200);
}

/// A reader that is true but for one thing.
fn wrong(name: &'static str, check_sheet: fn(&[u8]) -> u8) -> Engine {
    Engine { name, check_sheet, ..PLAIN }
}

/// The verdict on bytes in which each audit with so many bytes behind its kind has
/// others.
fn altered(bytes: &[u8], more: usize, other: usize) -> u8 {
    let alter = |text: &mut Vec<u8>| {
        if is_audit(text, more) {
            text.resize(5 + other, 0);
        }
    };
    plain::check_sheet(&sheet_with(bytes, alter))
}

/// The comparison can fail: each of these readers differs somewhere.
#[test]
fn every_wrong_reader_is_found() {
    let seed = run_seed();
    let item = |name, sheet_item| Engine { name, sheet_item, ..PLAIN };
    for engine in [
        wrong("all read", |_| 0),
        wrong("all refused", |_| 16),
        wrong("tails read", |bytes| {
            let ends = (2..=bytes.len()).any(|end| plain::check_sheet(&bytes[..end]) == 0);
            if ends {
                0
            } else {
                16
            }
        }),
        wrong("period 8 reads", |bytes| match bytes {
            [8, rest @ ..] => plain::check_sheet(&[&[0], rest].concat()),
            _ => plain::check_sheet(bytes),
        }),
        wrong("an audit with its place refused", |bytes| altered(bytes, 1, 2)),
        wrong("an audit without a place refused", |bytes| altered(bytes, 0, 2)),
        wrong("an audit of seven bytes read", |bytes| altered(bytes, 2, 1)),
        item("numbers written before they are judged", |bytes, item, offset, length| {
            (*offset, *length) = (0, 0);
            plain::sheet_item(bytes, item, offset, length)
        }),
        item("6 before 16", |bytes, item, offset, length| match bytes {
            [_, count, ..] if item >= *count => 6,
            _ => plain::sheet_item(bytes, item, offset, length),
        }),
        item("the item after", |bytes, item, offset, length| {
            plain::sheet_item(bytes, item.saturating_add(1), offset, length)
        }),
    ] {
        let found = (0..100 * SORTS.len()).filter(|number| {
            let mut random = Random::new(!seed, *number);
            read(&[engine], &mut random, &in_turn(&SORTS, seed, *number).1, false).is_err()
        });
        must_be_found(engine.name, found.count());
    }
}
