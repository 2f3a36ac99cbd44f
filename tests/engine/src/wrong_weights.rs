//! Engines that go wrong on purpose at document 02's P8: a quorum is asked by the number
//! of peers, or by other weights. Each must be found.

use crate::layout::{decode, encode};
use crate::{Engine, PLAIN};
use inputs::quorums::asked;
use reference::form::{read_step, Step};
use reference::state::{Entry, State};
use reference::table::{read_table, Table, LEAST_THRESHOLD};
use std::collections::BTreeSet;

/// Whether peers are taken for a quorum.
type IsQuorum = fn(&Table, &BTreeSet<usize>) -> bool;

/// As many as the threshold.
const HEADS: IsQuorum = |table, peers| peers.len() >= table.t;

/// Enough weight, or as many as would do without weights.
const MANY: IsQuorum =
    |table, peers| table.is_quorum(peers) || peers.len() >= LEAST_THRESHOLD[table.n - 1];

/// The true answer, without the effect; with the table and the state if the step is one
/// of these ops and a quorum may have a part in it.
fn judged(ops: &[u8], table: &[u8], state: &[u8], step: &[u8]) -> (u8, Option<(Table, State)>) {
    let answer = (PLAIN.step)(table, &mut state.to_vec(), step);
    if ![0, 12, 13].contains(&answer) || !ops.contains(&step[0]) {
        return (answer, None);
    }
    let table = read_table(table).expect("a table that was taken");
    let held = decode(&table, state);
    (answer, Some((table, held)))
}

/// A step of the op gets the quorum that it asks for by another rule.
fn asks(op: u8, table: &[u8], state: &mut [u8], step: &[u8], is_quorum: IsQuorum) -> u8 {
    let (answer, held) = judged(&[op], table, state, step);
    let Some((read, mut held)) = held else {
        return (PLAIN.step)(table, state, step);
    };
    // The items of boards come after it.
    let (_, peers) = &asked(&read, &held, step)[0];
    match is_quorum(&read, peers) {
        false => 12,
        true if answer == 12 => {
            force(&read, &mut held, step);
            state.copy_from_slice(&encode(&held));
            0
        }
        true => (PLAIN.step)(table, state, step),
    }
}

/// The step's effect without a quorum.
fn force(table: &Table, held: &mut State, step: &[u8]) {
    if let Ok(Step::Back { peer }) = read_step(step) {
        let period = held.peer(peer).c;
        let board = held.peer(peer).board(table, period);
        let _full = held.enter(Entry::Backing { signer: peer, period, board });
        held.peer_mut(peer).c += 1;
    } else {
        reference::step::step(&Table { t: 0, ..table.clone() }, held, step);
    }
}

/// A board has the items whose signers are a quorum by another rule.
fn boards(table: &[u8], state: &mut [u8], step: &[u8], is_quorum: IsQuorum) -> u8 {
    let (_, Some((read, mut held))) = judged(&[9, 11], table, state, step) else {
        return (PLAIN.step)(table, state, step);
    };
    let peer = step[1] as usize;
    let database = held.peer(peer).database.clone();
    let items = database.iter().filter(|(_, signers)| is_quorum(&read, signers));
    let all: BTreeSet<usize> = (1..=read.n).collect();
    held.peer_mut(peer).database = items.map(|(key, _)| (*key, all.clone())).collect();
    let answer = reference::step::step(&read, &mut held, step);
    held.peer_mut(peer).database = database;
    state.copy_from_slice(&encode(&held));
    answer
}

/// A step that asks a quorum, on a table whose weights are others.
fn reweighed(table: &[u8], state: &mut [u8], step: &[u8], other: fn(&mut [usize])) -> u8 {
    let (_, Some((mut read, mut held))) = judged(&[5, 6, 9, 11, 12], table, state, step) else {
        return (PLAIN.step)(table, state, step);
    };
    other(&mut read.weights);
    let answer = reference::step::step(&read, &mut held, step);
    state.copy_from_slice(&encode(&held));
    answer
}

const fn wrong(name: &'static str, step: fn(&[u8], &mut [u8], &[u8]) -> u8) -> Engine {
    Engine { name, step, ..PLAIN }
}

/// By the weights themselves, and else like those below: they must not be found.
pub const RIGHT_WEIGHTS: [Engine; 3] = [
    wrong("a quorum by weight", |table, state, step| match step.first() {
        Some(op @ (5 | 6 | 11 | 12)) => asks(*op, table, state, step, Table::is_quorum),
        _ => (PLAIN.step)(table, state, step),
    }),
    wrong("a board by weight", |table, state, step| boards(table, state, step, Table::is_quorum)),
    wrong("the same weights", |table, state, step| reweighed(table, state, step, |_| {})),
];

pub const WRONG_WEIGHTS: [Engine; 14] = [
    wrong("heads counted for shares", |table, state, step| asks(5, table, state, step, HEADS)),
    wrong("heads counted for receipts", |table, state, step| asks(6, table, state, step, HEADS)),
    wrong("heads counted for hashes", |table, state, step| asks(11, table, state, step, HEADS)),
    wrong("heads counted for backers", |table, state, step| asks(12, table, state, step, HEADS)),
    wrong("heads counted for a board's items", |table, state, step| {
        boards(table, state, step, HEADS)
    }),
    wrong("many heads enough for shares", |table, state, step| asks(5, table, state, step, MANY)),
    wrong("many heads enough for receipts", |table, state, step| asks(6, table, state, step, MANY)),
    wrong("many heads enough for hashes", |table, state, step| asks(11, table, state, step, MANY)),
    wrong("many heads enough for backers", |table, state, step| asks(12, table, state, step, MANY)),
    wrong("many heads enough for a board's items", |table, state, step| {
        boards(table, state, step, MANY)
    }),
    wrong("every weight 1", |table, state, step| {
        reweighed(table, state, step, |weights| weights.fill(1))
    }),
    wrong("every weight the first", |table, state, step| {
        reweighed(table, state, step, |weights| weights.fill(weights[0]))
    }),
    wrong("weights from the last peer on", |table, state, step| {
        reweighed(table, state, step, |weights| weights.reverse())
    }),
    wrong("weights read one byte too late", |table, state, step| {
        reweighed(table, state, step, |weights| {
            weights.rotate_left(1);
            weights.iter_mut().last().into_iter().for_each(|weight| *weight = 0);
        })
    }),
];
