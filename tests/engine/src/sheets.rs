//! The engines beside the reference on sheets: written from lent bytes, and
//! read from any bytes.

use crate::layout::decode;
use crate::lent::Lent;
use crate::row14::is_state;
use crate::{Engine, ENGINES};
use inputs::random::Random;
use reference::sheet::{read_sheet, sheet_of_board, Sheet};
use reference::table::read_table;
use reference::Refusal;

/// A call of the writer, but for its buffer.
#[derive(Clone, Copy)]
pub struct Writing<'a> {
    pub table: &'a [u8],
    pub state: &'a [u8],
    pub period: u8,
}

impl Writing<'_> {
    /// What the reference writes to a buffer of so many bytes, or the number of
    /// its refusal.
    pub fn expected(&self, room: usize) -> Result<Vec<u8>, u8> {
        let table = read_table(self.table).map_err(Refusal::number)?;
        if !is_state(&table, self.state) {
            return Err(14);
        }
        let state = decode(&table, self.state);
        sheet_of_board(&table, &state, self.period as usize, room).map_err(Refusal::number)
    }

    /// The call on all engines: the answer.
    pub fn call(&self, random: &mut Random, room: usize) -> u8 {
        let expected = self.expected(room);
        for engine in ENGINES {
            if let Err(wrong) = self.compare(&engine, random, room, &expected) {
                let (name, table, period) = (engine.name, self.table, self.period);
                panic!("{name}, table {table:?}, period {period}, room {room}: {wrong}");
            }
        }
        expected.map_or_else(|number| number, |_| 0)
    }

    /// How an engine differs, if it does. What is refused writes nothing, and
    /// what is not leaves the bytes after the sheet.
    pub fn compare(
        &self,
        engine: &Engine,
        random: &mut Random,
        room: usize,
        expected: &Result<Vec<u8>, u8>,
    ) -> Result<(), String> {
        let (table, state) = (self.table.to_vec(), self.state.to_vec());
        let (mut sheet, old) = (Lent::random(random, room), random.bits() as usize);
        let (mut after, mut length) = (sheet.clone(), old);
        let wanted = match expected {
            Ok(bytes) => {
                after.write(bytes);
                (0, bytes.len())
            }
            Err(number) => (*number, old),
        };
        let answer = (engine.write_sheet)(&table, &state, self.period, sheet.part(), &mut length);
        if (answer, length) != wanted {
            return Err(format!("answer and length {:?}, not {wanted:?}", (answer, length)));
        }
        if table != self.table || state != self.state {
            return Err("table or state written".to_string());
        }
        sheet.compare(&after).map_err(|wrong| format!("sheet, {wrong}"))
    }
}

/// Bytes that may be a sheet, and what the reference reads.
pub struct Reading<'a> {
    bytes: &'a [u8],
    sheet: Result<Sheet, Refusal>,
}

impl Reading<'_> {
    pub fn of(bytes: &[u8]) -> Reading<'_> {
        Reading { bytes, sheet: read_sheet(bytes) }
    }

    /// 0 or 16.
    pub fn answer(&self) -> u8 {
        self.sheet.as_ref().map_or_else(|refusal| refusal.number(), |_| 0)
    }

    /// Likely item numbers, or all.
    pub fn items(&self, random: &mut Random, all: bool) -> Vec<u8> {
        if all {
            return (0..=255).collect();
        }
        let count = self.bytes.get(1).copied().unwrap_or(0);
        let near = [0, count.wrapping_sub(1), count, count.wrapping_add(1)];
        let below = random.below(count as usize) as u8;
        [&near[..], &[63, 64, 255, below, random.bits() as u8]].concat()
    }

    /// How an engine differs, if it does.
    pub fn compare(
        &self,
        engine: &Engine,
        random: &mut Random,
        items: &[u8],
    ) -> Result<(), String> {
        let answer = (engine.check_sheet)(self.bytes);
        if answer != self.answer() {
            return Err(format!("{answer}, not {}", self.answer()));
        }
        items.iter().try_for_each(|item| self.compare_item(engine, random, *item))
    }

    /// An item that is refused leaves both numbers.
    fn compare_item(&self, engine: &Engine, random: &mut Random, item: u8) -> Result<(), String> {
        let old = [random.bits() as usize, random.bits() as usize];
        let place = self.sheet.as_ref().map_err(|refusal| *refusal);
        let wanted = match place.and_then(|sheet| sheet.place(item as usize)) {
            Ok(pair) => (0, [pair.offset, pair.length]),
            Err(refusal) => (refusal.number(), old),
        };
        let [mut offset, mut length] = old;
        let answer = (engine.sheet_item)(self.bytes, item, &mut offset, &mut length);
        let given = (answer, [offset, length]);
        if given == wanted {
            Ok(())
        } else {
            Err(format!("item {item}: {given:?}, not {wanted:?}"))
        }
    }
}
