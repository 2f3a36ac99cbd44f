//! Steps: a name and fields as text; op, peer, other, period, item (also
//! entry number) and board as 13 bytes.

use crate::hexadecimal;
use crate::words::Line;

pub const STEP_LENGTH: usize = 13;

/// Where the board's 8 bytes begin.
const BOARD: usize = 5;

/// A field of a step, as the text has it.
#[derive(Clone, Copy, PartialEq)]
pub enum Field {
    Peer,
    Other,
    Period,
    Item,
    Entry,
    Board,
}

use Field::{Board, Entry, Item, Other, Peer, Period};

/// The ops from 1 on: the name, and the fields in the order written.
const OPS: &[(&str, &[Field])] = &[
    ("post", &[Item]),
    ("hand", &[Peer, Item]),
    ("sign", &[Peer, Item]),
    ("take", &[Peer, Other, Period, Item]),
    ("share", &[Peer, Item]),
    ("receipt", &[Period, Item]),
    ("close", &[Peer]),
    ("fetch", &[Peer, Other, Period]),
    ("hash", &[Peer, Period]),
    ("hear", &[Peer, Entry]),
    ("back", &[Peer]),
    ("publish", &[Entry]),
    ("false-signature", &[Peer, Period, Item]),
    ("false-share", &[Peer, Period, Item]),
    ("false-hash", &[Peer, Period, Board]),
    ("false-backing", &[Peer, Period, Board]),
    ("down", &[Peer]),
    ("up", &[Peer]),
    ("clear", &[Period]),
];

/// The five fields after the op by their names; an entry stands as an item.
pub const FIELDS: [(&str, Field); 5] =
    [("peer", Peer), ("other", Other), ("period", Period), ("item", Item), ("board", Board)];

/// The name of an op and the fields that it uses; none if there is no such op.
pub fn op(number: u8) -> Option<(&'static str, &'static [Field])> {
    OPS.get((number as usize).checked_sub(1)?).copied()
}

/// The number of the last op.
pub fn last_op() -> usize {
    OPS.len()
}

/// Where a field stands in the step.
fn place(field: Field) -> usize {
    match field {
        Peer => 1,
        Other => 2,
        Period => 3,
        Item | Entry => 4,
        Board => BOARD,
    }
}

/// What a field of 13 bytes holds: a number, or a board as a set of bits.
pub fn value(bytes: &[u8], field: Field) -> u64 {
    match field {
        Board => bytes[BOARD..].iter().fold(0, |sum, byte| sum << 8 | *byte as u64),
        _ => bytes[place(field)] as u64,
    }
}

/// The items of a board that is a set of bits: bit i, worth 2^i, is item i.
pub fn items_of(board: u64) -> impl Iterator<Item = usize> {
    (0..64).filter(move |i| board >> i & 1 == 1)
}

/// The bytes of a step line: 13, or fewer for a short `raw`.
pub fn read_step(mut line: Line) -> Result<Vec<u8>, String> {
    let name = line.name();
    if name == "raw" {
        return read_raw(line);
    }
    let Some(k) = OPS.iter().position(|(op, _)| *op == name) else {
        return Err(line.expected("an item (before the first step), a step or 'raw'"));
    };
    line.word(name)?;
    let mut bytes = vec![0; STEP_LENGTH];
    bytes[0] = k as u8 + 1;
    for field in OPS[k].1 {
        read_field(&mut line, *field, &mut bytes)?;
    }
    line.end()?;
    Ok(bytes)
}

fn read_field(line: &mut Line, field: Field, bytes: &mut [u8]) -> Result<(), String> {
    let what = match field {
        Peer => "a peer number",
        Other => "the other peer's number",
        Period => "a period number",
        Item => "an item number",
        Entry => {
            line.word("entry")?;
            "an entry number"
        }
        Board => return read_board(line, bytes),
    };
    bytes[place(field)] = line.number(what, 0, 255)? as u8;
    Ok(())
}

/// `board I ..`: bit i, worth 2^i, is item i.
fn read_board(line: &mut Line, bytes: &mut [u8]) -> Result<(), String> {
    line.word("board")?;
    let items = line.numbers("an item number", 0, 63, None)?;
    let board = items.iter().fold(0u64, |set, i| set | 1 << i);
    bytes[BOARD..].copy_from_slice(&board.to_be_bytes());
    Ok(())
}

/// `raw XX ..`: 1 to 13 bytes as they are.
fn read_raw(mut line: Line) -> Result<Vec<u8>, String> {
    line.word("raw")?;
    let bytes = line.bytes("a byte")?;
    if bytes.is_empty() || bytes.len() > STEP_LENGTH {
        let found = bytes.len();
        return Err(line.error(&format!("expected 1 to 13 bytes after 'raw', found {found}")));
    }
    Ok(bytes)
}

/// The line of a step, or of bytes that are none.
pub fn write_step(bytes: &[u8]) -> String {
    match named_step(bytes) {
        Some(line) => line,
        None => format!("raw{}", hexadecimal(bytes)),
    }
}

/// The step by its name, if the bytes have its form: 13 bytes, op 1 to 19,
/// and 0 in every field that the op does not use.
fn named_step(bytes: &[u8]) -> Option<String> {
    if bytes.len() != STEP_LENGTH {
        return None;
    }
    let (name, fields) = op(bytes[0])?;
    if !unused(bytes, fields).is_empty() {
        return None;
    }
    let written: String = fields.iter().map(|field| write_field(*field, bytes)).collect();
    Some(format!("{name}{written}"))
}

/// The fields of 13 bytes that are not 0 although they are not among those
/// that the op uses, by their names.
pub fn unused(bytes: &[u8], uses: &[Field]) -> Vec<(&'static str, u64)> {
    let used = |field: Field| uses.iter().any(|other| place(*other) == place(field));
    let values = FIELDS.iter().filter(|(_, field)| !used(*field));
    values.map(|(name, field)| (*name, value(bytes, *field))).filter(|(_, v)| *v != 0).collect()
}

fn write_field(field: Field, bytes: &[u8]) -> String {
    let value = value(bytes, field);
    match field {
        Board => {
            " board".to_string() + &items_of(value).map(|i| format!(" {i}")).collect::<String>()
        }
        Entry => format!(" entry {value}"),
        _ => format!(" {value}"),
    }
}
