//! Boxes that take messages wrongly, each in one way. Each must be found.

use crate::field::FieldBox;
use crate::taking;
use reference::field::message::{read_message, Message};
use reference::field::part::{Part, MOST_HEARD};
use reference::table::Table;
use reference::Refusal;

type Taken = Result<(), Refusal>;

/// The message on a part that is altered before and mended after, if it is of the op.
fn but(
    op: u8,
    (table, peer, part, bytes): (&Table, u8, &mut Part, &[u8]),
    alter: fn(&Table, &mut Part),
    mend: fn(&Part, &mut Part),
) -> Taken {
    if bytes.first() != Some(&op) {
        return part.message(table, peer, bytes);
    }
    let before = part.clone();
    alter(table, part);
    let taken = part.message(table, peer, bytes);
    mend(&before, part);
    taken
}

fn refuse_if(bad: bool, refusal: Refusal) -> Taken {
    if bad {
        Err(refusal)
    } else {
        Ok(())
    }
}

/// p is as it was.
fn mend_open(before: &Part, part: &mut Part) {
    part.p = before.p;
}

fn close_one(table: &Table, part: &mut Part) {
    part.p = (part.p + 1).min(table.periods);
}

/// Only what is held in the open period is looked at.
fn hold_open(_table: &Table, part: &mut Part) {
    let p = part.p;
    (0..part.held.len()).filter(|q| *q != p).for_each(|q| part.held[q] = 0);
}

fn mend_held(before: &Part, part: &mut Part) {
    (0..part.held.len()).for_each(|q| part.held[q] |= before.held[q]);
}

/// What is out of range in a fetched row is left out instead.
fn cut_row(table: &Table, peer: u8, part: &mut Part, bytes: &[u8]) -> Taken {
    let mut cut = bytes.to_vec();
    if let (Some(8), Some(row)) = (bytes.first(), cut.get_mut(13..)) {
        let signers = u16::MAX >> (16 - table.n);
        for (item, set) in row.chunks_exact_mut(2).enumerate() {
            let kept = if item < table.m() { signers } else { 0 };
            let kept = u16::from_be_bytes([set[0], set[1]]) & kept;
            set.copy_from_slice(&kept.to_be_bytes());
        }
    }
    part.message(table, peer, &cut)
}

/// A fetched row takes the place of the peer's own.
fn put_row(table: &Table, peer: u8, part: &mut Part, bytes: &[u8]) -> Taken {
    part.message(table, peer, bytes)?;
    if let Ok((_, Message::Fetch { period, row, .. })) = read_message(bytes) {
        part.database[period] = row;
    }
    Ok(())
}

/// A new hash beside 256.
fn hear_more(table: &Table, peer: u8, part: &mut Part, bytes: &[u8]) -> Taken {
    match (part.message(table, peer, bytes), read_message(bytes)) {
        (Err(Refusal::Full), Ok((_, Message::Hear { hash }))) => part.heard.push(hash),
        (taken, _) => return taken,
    }
    Ok(())
}

/// In a full list the last hash makes room.
fn forget_last(table: &Table, peer: u8, part: &mut Part, bytes: &[u8]) -> Taken {
    match part.message(table, peer, bytes) {
        Err(Refusal::Full) => {
            part.heard.pop();
            part.message(table, peer, bytes)
        }
        taken => taken,
    }
}

/// A full list takes no repeat either.
fn repeat_refused(table: &Table, peer: u8, part: &mut Part, bytes: &[u8]) -> Taken {
    let is_full = part.heard.len() == MOST_HEARD;
    part.message(table, peer, bytes)?;
    refuse_if(is_full && bytes[0] == 10, Refusal::Full)
}

/// A hash that was heard is noted once more.
fn noted_again(table: &Table, peer: u8, part: &mut Part, bytes: &[u8]) -> Taken {
    let heard = part.heard.len();
    part.message(table, peer, bytes)?;
    if let Ok((_, Message::Hear { hash })) = read_message(bytes) {
        part.heard.extend((part.heard.len() == heard).then_some(hash));
    }
    Ok(())
}

/// Full is judged before period.
fn full_first(table: &Table, peer: u8, part: &mut Part, bytes: &[u8]) -> Taken {
    let is_full = part.heard.len() == MOST_HEARD;
    match (part.message(table, peer, bytes), read_message(bytes)) {
        (Err(Refusal::Period), Ok((_, Message::Hear { hash }))) => {
            refuse_if(is_full && !part.heard.contains(&hash), Refusal::Full)?;
            Err(Refusal::Period)
        }
        (taken, _) => taken,
    }
}

/// Period is judged before down.
fn period_first(table: &Table, peer: u8, part: &mut Part, bytes: &[u8]) -> Taken {
    let mut up = Part { down: false, ..part.clone() };
    match (part.message(table, peer, bytes), up.message(table, peer, bytes)) {
        (Err(Refusal::Down), Err(Refusal::Period)) => Err(Refusal::Period),
        (taken, _) => taken,
    }
}

/// A dishonest peer is served too.
fn any_role(table: &Table, peer: u8, part: &mut Part, bytes: &[u8]) -> Taken {
    let all = Table { honest: (1..=table.n).collect(), ..table.clone() };
    part.message(&all, peer, bytes)
}

pub const WRONG_MESSAGES: [FieldBox; 14] = [
    taking!("hears the open period", |table, peer, part, bytes| {
        but(10, (table, peer, part, bytes), close_one, mend_open)
    }),
    taking!("fetches the open period", |table, peer, part, bytes| {
        but(8, (table, peer, part, bytes), close_one, mend_open)
    }),
    taking!("takes beyond p", |table, peer, part, bytes| {
        but(4, (table, peer, part, bytes), close_one, mend_open)
    }),
    taking!("clashes of the open period only", |table, peer, part, bytes| {
        but(2, (table, peer, part, bytes), hold_open, mend_held)
    }),
    taking!("a fetched row not judged", cut_row),
    taking!("a fetched row in place of its own", put_row),
    taking!("a 257th hash heard", hear_more),
    taking!("a 257th hash for the last", forget_last),
    taking!("a full list refuses a repeat", repeat_refused),
    taking!("a repeat noted again", noted_again),
    taking!("full before period", full_first),
    taking!("period before down", period_first),
    taking!("a dishonest peer served", any_role),
    taking!("hashes kept in order", |table, peer, part, bytes| {
        part.message(table, peer, bytes)?;
        if bytes[0] == 10 {
            part.heard.sort();
        }
        Ok(())
    }),
];
