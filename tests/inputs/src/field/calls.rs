//! Calls on a box: those that its state makes likely to be taken, and others near them.

use crate::field::parts::{any_hash, any_row};
use crate::random::Random;
use crate::steps::all_items;
use reference::field::message::{write_act, write_message, Act, Message, Row, FETCH_LENGTH};
use reference::field::part::{signers, Hash, Part};
use reference::field::passed::Passed;
use reference::form::STEP_LENGTH;
use reference::table::{Table, MOST_ITEMS};

/// A call: the number of the peer, the bytes for one of the functions, and what the
/// output has before it.
pub struct Given {
    pub peer: u8,
    pub passed: Passed,
    pub out: Vec<u8>,
}

/// How often each op is chosen: as often as it is here.
const OPS: &[u8] =
    &[2, 2, 2, 2, 3, 3, 3, 4, 4, 5, 5, 5, 5, 7, 8, 8, 9, 10, 10, 10, 10, 11, 11, 11, 17, 18, 18];

/// A call on the box of peer j. One in some is malformed, goes to the other function,
/// names another peer, or has an output of another length.
pub fn random_call(random: &mut Random, table: &Table, j: usize, part: &Part) -> Given {
    let mut passed = likely(random, table, j, part);
    match random.below(16) {
        0 => malform(random, &mut passed),
        1 => passed = other_function(passed),
        2 => rename(random, table, &mut passed),
        _ => {}
    }
    let peer = if random.once_in(20) { any_peer(random, table.n) } else { j };
    let odd = [0, 12, 14, random.below(40)][random.below(4)];
    let room = if random.once_in(20) { odd } else { STEP_LENGTH };
    Given { peer: peer as u8, passed, out: random.bytes(room) }
}

/// Any bytes, for either function.
pub fn any_bytes(random: &mut Random) -> Passed {
    let most = [STEP_LENGTH, FETCH_LENGTH, 20, 200][random.below(4)];
    let length = [most, random.below(most)][random.below(2)];
    let mut bytes = random.bytes(length);
    if random.once_in(2) {
        bytes.iter_mut().for_each(|byte| *byte %= 20);
    }
    [Passed::Message(bytes.clone()), Passed::Step(bytes)][random.below(2)].clone()
}

/// What the state makes likely to be taken.
fn likely(random: &mut Random, table: &Table, j: usize, part: &Part) -> Passed {
    let op = OPS[random.below(OPS.len())];
    let item = near(random, table.m());
    let closed = if random.once_in(8) { near(random, table.periods) } else { random.below(part.p) };
    let act = match op {
        3 => Act::Sign { item: some_item(random, part.held.get(part.p), item) },
        5 => Act::Share { item: share_item(random, table, part, item) },
        7 => Act::Close,
        9 => Act::Hash { period: closed },
        11 => Act::Back,
        17 => Act::Down,
        18 => Act::Up,
        _ => {
            let message = likely_message(random, table, part, op, closed, item);
            return Passed::Message(write_message(j, &message));
        }
    };
    Passed::Step(write_act(j, act).to_vec())
}

fn likely_message(
    random: &mut Random,
    table: &Table,
    part: &Part,
    op: u8,
    closed: usize,
    item: usize,
) -> Message {
    let signer = near_peer(random, table.n);
    match op {
        2 => Message::Hand { item },
        4 => {
            let open = part.p + random.below(2) * random.below(2);
            Message::Take { signer, period: [closed, open][random.below(2)], item }
        }
        8 => Message::Fetch { other: signer, period: closed, row: near_row(random, table) },
        _ => Message::Hear { hash: near_hash(random, table, part) },
    }
}

/// A number below the bound, or now and then one above.
fn near(random: &mut Random, bound: usize) -> usize {
    match random.below(16) {
        0 => bound,
        1 => random.between(bound, 255),
        _ => random.below(bound),
    }
}

/// A peer, or now and then a number that is none.
fn near_peer(random: &mut Random, n: usize) -> usize {
    if random.once_in(12) {
        any_peer(random, n)
    } else {
        random.between(1, n)
    }
}

fn any_peer(random: &mut Random, n: usize) -> usize {
    [0, n + 1, random.between(1, n), random.below(256)][random.below(4)]
}

/// One of the items of a set, if there is one.
fn some_item(random: &mut Random, set: Option<&u64>, otherwise: usize) -> usize {
    let set = set.copied().unwrap_or(0);
    let is_in = |i: &usize| set >> i & 1 == 1;
    match random.pick((0..MOST_ITEMS).filter(is_in)) {
        Some(item) if !random.once_in(4) => item,
        _ => otherwise,
    }
}

/// An item that is signed by a quorum in p, one that a share was given for, or any.
fn share_item(random: &mut Random, table: &Table, part: &Part, otherwise: usize) -> usize {
    let Some(row) = part.database.get(part.p) else { return otherwise };
    let is_signed = |i: &usize| table.is_quorum(&signers(row[*i]));
    let signed = (0..table.m()).filter(is_signed).fold(0, |set, i| set | 1 << i);
    let given = part.gave[..part.p].iter().fold(0, |set, items| set | items);
    let set = [signed & !given, given][random.below(4) / 3];
    some_item(random, Some(&set), otherwise)
}

/// A row within the table's ranges, or now and then one with a set too many or too great.
fn near_row(random: &mut Random, table: &Table) -> Row {
    let mut row = any_row(random, table);
    if random.once_in(8) {
        let at = [table.m().min(MOST_ITEMS - 1), random.below(MOST_ITEMS)][random.below(2)];
        row[at] |= 1 << [table.n.min(15), random.below(16)][random.below(2)];
    }
    row
}

/// A hash within the table's ranges, one that was heard, or now and then one beyond.
fn near_hash(random: &mut Random, table: &Table, part: &Part) -> Hash {
    let mut hash = any_hash(random, table, part);
    match random.below(16) {
        0 => hash.signer = any_peer(random, table.n),
        1 => hash.period = near(random, table.periods),
        2 => hash.board |= 1 << table.m().min(MOST_ITEMS - 1),
        3 => hash.board |= random.bits() & !all_items(table.m()),
        4..=7 => hash = random.pick(part.heard.iter().copied()).unwrap_or(hash),
        _ => {}
    }
    hash
}

/// Bytes that are mostly no message: another length, any op, or one byte changed.
fn malform(random: &mut Random, passed: &mut Passed) {
    let bytes = bytes_mut(passed);
    let lengths = [0, 12, 14, 140, 141, 142, random.below(200)];
    match random.below(4) {
        0 => bytes.resize(lengths[random.below(lengths.len())], 0),
        1 => bytes[0] = [random.below(21) as u8, random.bits() as u8][random.below(2)],
        2 => bytes[random.below(5)] = random.below(4) as u8,
        _ => bytes[random.below(STEP_LENGTH)] = random.bits() as u8,
    }
}

fn bytes_mut(passed: &mut Passed) -> &mut Vec<u8> {
    match passed {
        Passed::Message(bytes) | Passed::Step(bytes) => bytes,
    }
}

/// The same bytes for the other function.
fn other_function(passed: Passed) -> Passed {
    match passed {
        Passed::Message(bytes) => Passed::Step(bytes),
        Passed::Step(bytes) => Passed::Message(bytes),
    }
}

/// The bytes name another peer.
fn rename(random: &mut Random, table: &Table, passed: &mut Passed) {
    bytes_mut(passed)[1] = any_peer(random, table.n) as u8;
}
