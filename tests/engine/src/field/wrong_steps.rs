//! Boxes that do steps of their own wrongly, each in one way. Each must be found.

use crate::doing;
use crate::field::FieldBox;
use reference::field::part::{signers, Hash, Part};
use reference::form::STEP_LENGTH;
use reference::table::{Table, MOST_ITEMS};
use reference::Refusal;

type Done = Result<[u8; STEP_LENGTH], Refusal>;

/// The step on a part that is altered before and mended after, if it is of the op.
fn but(
    op: u8,
    (table, peer, part, bytes): (&Table, u8, &mut Part, &[u8]),
    alter: fn(&Table, u8, &mut Part),
    mend: fn(&Part, &mut Part),
) -> Done {
    if bytes.first() != Some(&op) {
        return part.step(table, peer, bytes);
    }
    let before = part.clone();
    alter(table, peer, part);
    let done = part.step(table, peer, bytes);
    mend(&before, part);
    done
}

/// The step, and what it does besides where it is of the op and taken.
fn and(
    op: u8,
    (table, peer, part, bytes): (&Table, u8, &mut Part, &[u8]),
    more: fn(&Part, &mut Part),
) -> Done {
    let before = part.clone();
    let sent = part.step(table, peer, bytes)?;
    if bytes[0] == op {
        more(&before, part);
    }
    Ok(sent)
}

/// Every heard hash of period c is of the peer's own board.
fn of_own_board(table: &Table, _peer: u8, part: &mut Part) {
    if part.c < table.periods {
        let (period, board) = (part.c, part.board(table, part.c));
        let of_period = part.heard.iter_mut().filter(|hash| hash.period == period);
        of_period.for_each(|hash| hash.board = board);
    }
}

/// Every heard hash of the peer's own board is of period c.
fn of_any_period(_table: &Table, _peer: u8, part: &mut Part) {
    let period = part.c;
    part.heard.iter_mut().for_each(|hash| hash.period = period);
}

/// The peer's own hash counts unheard.
fn own_counted(table: &Table, peer: u8, part: &mut Part) {
    if part.c < table.periods {
        let (period, board) = (part.c, part.board(table, part.c));
        part.heard.push(Hash { signer: peer as usize, period, board });
    }
}

fn mend_heard(before: &Part, part: &mut Part) {
    part.heard = before.heard.clone();
}

/// What is held in an earlier period is held.
fn held_before(_table: &Table, _peer: u8, part: &mut Part) {
    let all = part.held.iter().fold(0, |set, items| set | items);
    part.held.iter_mut().for_each(|items| *items = all);
}

fn mend_held(before: &Part, part: &mut Part) {
    part.held = before.held;
}

/// Signers of any period count.
fn signed_before(_table: &Table, _peer: u8, part: &mut Part) {
    for item in 0..MOST_ITEMS {
        let all = part.database.iter().fold(0, |set, row| set | row[item]);
        part.database.iter_mut().for_each(|row| row[item] = all);
    }
}

fn mend_database(before: &Part, part: &mut Part) {
    part.database = before.database;
}

/// Short is judged before given.
fn short_first(table: &Table, peer: u8, part: &mut Part, bytes: &[u8]) -> Done {
    match part.step(table, peer, bytes) {
        Err(Refusal::Given) => {
            let set = part.database[part.p][bytes[4] as usize];
            Err(if table.is_quorum(&signers(set)) { Refusal::Given } else { Refusal::Short })
        }
        done => done,
    }
}

/// Heads are counted for weights, and t is compared with them.
fn heads(table: &Table, peer: u8, part: &mut Part, bytes: &[u8]) -> Done {
    let equal = Table { weights: vec![1; table.n], ..table.clone() };
    part.step(&equal, peer, bytes)
}

/// A signature or share that is there already is not sent again.
fn silent(table: &Table, peer: u8, part: &mut Part, bytes: &[u8]) -> Done {
    let before = part.clone();
    let sent = part.step(table, peer, bytes)?;
    let is_repeat = *part == before && [3, 5].contains(&bytes[0]);
    Ok(if is_repeat { [0; STEP_LENGTH] } else { sent })
}

/// The board that is sent has its low byte first.
fn low_first(table: &Table, peer: u8, part: &mut Part, bytes: &[u8]) -> Done {
    let mut sent = part.step(table, peer, bytes)?;
    sent[5..].reverse();
    Ok(sent)
}

/// The step itself is sent.
fn echoed(table: &Table, peer: u8, part: &mut Part, bytes: &[u8]) -> Done {
    let sent = part.step(table, peer, bytes)?;
    Ok(if sent == [0; STEP_LENGTH] { sent } else { bytes.try_into().expect("13 bytes") })
}

pub const WRONG_STEPS: [FieldBox; 17] = [
    doing!("forgets its shares", |table, peer, part, bytes| {
        and(5, (table, peer, part, bytes), |before, part| part.gave = before.gave)
    }),
    doing!("forgets its shares at a close", |table, peer, part, bytes| {
        and(7, (table, peer, part, bytes), |_, part| part.gave = [0; 8])
    }),
    doing!("forgets its signature", |table, peer, part, bytes| {
        and(3, (table, peer, part, bytes), mend_database)
    }),
    doing!("forgets what it holds when down", |table, peer, part, bytes| {
        and(17, (table, peer, part, bytes), |_, part| part.held = [0; 8])
    }),
    doing!("does not raise c", |table, peer, part, bytes| {
        and(11, (table, peer, part, bytes), |before, part| part.c = before.c)
    }),
    doing!("counts other boards' hashes", |table, peer, part, bytes| {
        but(11, (table, peer, part, bytes), of_own_board, mend_heard)
    }),
    doing!("counts other periods' hashes", |table, peer, part, bytes| {
        but(11, (table, peer, part, bytes), of_any_period, mend_heard)
    }),
    doing!("counts its own hash unheard", |table, peer, part, bytes| {
        but(11, (table, peer, part, bytes), own_counted, mend_heard)
    }),
    doing!("signs what it held before", |table, peer, part, bytes| {
        but(3, (table, peer, part, bytes), held_before, mend_held)
    }),
    doing!("shares what was signed before", |table, peer, part, bytes| {
        but(5, (table, peer, part, bytes), signed_before, mend_database)
    }),
    doing!("sends the hash of the open period", |table, peer, part, bytes| {
        let close =
            |table: &Table, _: u8, part: &mut Part| part.p = (part.p + 1).min(table.periods);
        but(9, (table, peer, part, bytes), close, |before, part| part.p = before.p)
    }),
    doing!("backs when down", |table, peer, part, bytes| {
        let up = |_: &Table, _: u8, part: &mut Part| part.down = false;
        but(11, (table, peer, part, bytes), up, |before, part| part.down = before.down)
    }),
    doing!("short before given", short_first),
    doing!("heads for weights", heads),
    doing!("a repeat is silent", silent),
    doing!("a board low byte first", low_first),
    doing!("the step sent", echoed),
];
