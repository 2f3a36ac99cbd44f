//! Random steps, of which many are taken.

use crate::answers::{last_op, row_of};
use crate::clears::likely_clear;
use crate::peers::quorum_of;
use crate::random::Random;
use reference::form::{bits, write_step, Step};
use reference::state::{Entry, State};
use reference::table::Table;

/// How often each op is chosen: as often as it is here.
const OPS: &[u8] = &[
    1, 1, 1, 2, 2, 2, 3, 3, 3, 4, 4, 4, 4, 5, 5, 5, 6, 6, 7, 8, 8, 9, 9, 10, 10, 10, 11, 11, 12,
    12, 13, 14, 15, 16, 17, 18, 18, 18, 19, 19,
];

/// The peers that are not honest.
pub fn liars(table: &Table) -> Vec<usize> {
    (1..=table.n).filter(|k| !table.is_honest(*k)).collect()
}

/// The board of all m items.
pub fn all_items(m: usize) -> u64 {
    u64::MAX.checked_shr(64 - m as u32).unwrap_or(0)
}

/// The next steps of a run: one step, the same one for all peers, or now and then
/// the whole way of a slip or of a board.
pub fn random_steps(random: &mut Random, table: &Table, state: &State) -> Vec<Vec<u8>> {
    match random.below(120) {
        0 | 1 => return slip(random, table, state),
        2 if !table.honest.is_empty() => return board(random, table, state),
        _ => {}
    }
    let choice = random.below(100);
    let step = match choice {
        0..=12 => uniform(random, table),
        _ => likely(random, table, state),
    };
    if choice % 20 == 5 {
        vec![malformed(random, step)]
    } else if choice > 70 && (2..=11).contains(&step[0]) && step[0] != 6 {
        sweep(&step, table.n)
    } else {
        vec![step]
    }
}

/// Some peers in the order drawn; or those that weigh least come first.
fn in_turn(random: &mut Random, table: &Table, peers: impl Iterator<Item = usize>) -> Vec<usize> {
    let mut peers = random.drawn(peers);
    if random.once_in(2) {
        peers.sort_by_key(|peer| table.weights[peer - 1]);
    }
    peers
}

/// The way of a slip to its receipt, mostly of one that some peer gave a share for:
/// each honest peer holds it, signs it and takes signatures in its open period. The
/// receipt is asked for after each share.
fn slip(random: &mut Random, table: &Table, state: &State) -> Vec<Vec<u8>> {
    let item = match random.pick(state.shares.iter()) {
        Some((_, _, item)) if !random.once_in(4) => *item,
        _ => random.below(table.m()),
    };
    let honest = in_turn(random, table, table.honest.iter().copied());
    let period = honest.first().map_or(0, |peer| state.peer(*peer).p);
    let mut steps = vec![Step::Post { item }];
    for peer in in_turn(random, table, liars(table).into_iter()) {
        steps.push(Step::FalseSignature { peer, period, item });
        if random.once_in(2) {
            steps.extend([Step::FalseShare { peer, period, item }, Step::Receipt { period, item }]);
        }
    }
    steps.extend(honest.iter().map(|peer| Step::Hand { peer: *peer, item }));
    steps.extend(honest.iter().map(|peer| Step::Sign { peer: *peer, item }));
    for peer in honest.iter().copied() {
        let period = state.peer(peer).p;
        let mut others = quorum_of(random, table, 1..=table.n, |other| *other);
        others.push(random.between(1, table.n));
        steps.extend(others.into_iter().map(|other| Step::Take { peer, other, period, item }));
    }
    for peer in honest {
        steps.extend([Step::Share { peer, item }, Step::Receipt { period, item }]);
    }
    written(steps)
}

fn written(steps: Vec<Step>) -> Vec<Vec<u8>> {
    steps.into_iter().map(|step| write_step(step).to_vec()).collect()
}

/// The way of a board, whose hashes are there: each honest peer hears them and backs,
/// and so do liars. It is published after each, as far as that goes, and often cleared.
fn board(random: &mut Random, table: &Table, state: &State) -> Vec<Vec<u8>> {
    let peers = in_turn(random, table, 1..=table.n);
    let first = *peers.iter().find(|peer| table.is_honest(**peer)).expect("an honest peer");
    let period = state.peer(first).c;
    let board = state.peer(first).board(table, period);
    let is_hash = |entry: &Entry| match entry {
        Entry::Hash { period: q, board: b, .. } => *q == period && *b == board,
        _ => false,
    };
    let hashes: Vec<usize> =
        (0..state.bag.len()).filter(|entry| is_hash(&state.bag[*entry])).collect();
    let mut steps = Vec::new();
    for peer in peers {
        if table.is_honest(peer) {
            steps.extend(hashes.iter().map(|entry| Step::Hear { peer, entry: *entry }));
            steps.push(Step::Back { peer });
        } else if random.once_in(2) {
            steps.push(Step::FalseBacking { peer, period, board: bits(&board) });
        }
        // The first of these backings, if there was room for it.
        steps.push(Step::Publish { entry: state.bag.len().min(255) });
    }
    if random.once_in(2) {
        steps.push(Step::Clear { period });
    }
    written(steps)
}

/// The step for each peer, and a take for each other too.
fn sweep(step: &[u8], n: usize) -> Vec<Vec<u8>> {
    let mut steps = Vec::new();
    for peer in 1..=n as u8 {
        let others = if step[0] == 4 { 1..=n as u8 } else { step[2]..=step[2] };
        steps.extend(others.map(|other| [&[step[0], peer, other], &step[3..]].concat()));
    }
    steps
}

/// Bytes that are mostly no step: a wrong length, any op, an unused byte not 0,
/// or one byte changed.
fn malformed(random: &mut Random, mut step: Vec<u8>) -> Vec<u8> {
    match random.below(4) {
        0 => step.resize(random.between(0, 20), 0),
        1 => step[0] = random.bits() as u8,
        2 => {
            let at = random.pick(unused(step[0]).into_iter()).unwrap_or(0);
            step[at] = random.between(1, 255) as u8;
        }
        _ => step[random.below(13)] = random.bits() as u8,
    }
    step
}

/// Whether an op names peer, other, period and item (or entry).
fn fields(op: u8) -> [bool; 4] {
    ["peer", "other", "period", "item"].map(|field| row_of(op).fields.contains(&field))
}

fn has_board(op: u8) -> bool {
    row_of(op).fields.contains(&"board")
}

/// The places of the bytes that are 0 in every step of an op.
fn unused(op: u8) -> Vec<usize> {
    let named = fields(op);
    let board = if has_board(op) { 13..13 } else { 5..13 };
    (1..5).filter(|at| !named[at - 1]).chain(board).collect()
}

/// Any op, with its fields anywhere in range or one beyond.
pub fn uniform(random: &mut Random, table: &Table) -> Vec<u8> {
    let op = random.between(1, last_op() as usize) as u8;
    uniform_of(random, table, op)
}

/// A step of the op, with its fields anywhere in range or one beyond.
fn uniform_of(random: &mut Random, table: &Table, op: u8) -> Vec<u8> {
    let ends = [table.n + 1, table.n + 1, table.periods, table.m()];
    let mut step = vec![op];
    for (named, end) in fields(op).into_iter().zip(ends) {
        step.push(if named { random.between(0, end) as u8 } else { 0 });
    }
    let reach = all_items((table.m() + 1).min(64));
    let board = if has_board(op) { random.bits() & random.bits() & reach } else { 0 };
    step.extend(board.to_be_bytes());
    step
}

/// A step with fields that the state makes likely to be taken.
fn likely(random: &mut Random, table: &Table, state: &State) -> Vec<u8> {
    let op = OPS[random.below(OPS.len())];
    let peer = random.pick(table.honest.iter().copied()).unwrap_or(1);
    let other = random.pick(table.honest.iter().copied()).unwrap_or(1);
    let (up_to, posted) = (state.peer(peer).p, random.pick(state.posted.iter().copied()));
    let item = posted.unwrap_or(0);
    let closed = random.below(up_to);
    let step = match op {
        1 => Step::Post { item: random.below(table.m()) },
        2 => Step::Hand { peer, item: or_given(random, state, peer, item) },
        3 => {
            let held = state.peer(peer).held.iter().filter(|held| held.0 == up_to);
            Step::Sign { peer, item: random.pick(held).map_or(item, |held| held.1) }
        }
        4 => {
            let signature = random.pick(state.signatures.iter().copied());
            let (other, period, item) = signature.unwrap_or((other, closed, item));
            Step::Take { peer, other, period, item }
        }
        5 => {
            let known = state.peer(peer).database.keys().filter(|key| key.0 == up_to);
            let item = random.pick(known).map_or(item, |key| key.1);
            Step::Share { peer, item: or_given(random, state, peer, item) }
        }
        6 => {
            let share = random.pick(state.shares.iter().copied());
            let (_, period, item) = share.unwrap_or((0, closed, item));
            Step::Receipt { period, item }
        }
        7 => Step::Close { peer },
        8 => Step::Fetch { peer, other, period: closed },
        9 => Step::Hash { peer, period: [closed, state.peer(peer).c][random.below(2)] },
        10 => Step::Hear { peer, entry: pick_hash(random, table, state, peer) },
        11 => Step::Back { peer },
        12 => Step::Publish { entry: pick_backing(random, state) },
        13..=16 => false_step(random, table, state, op, item),
        17 => Step::Down { peer },
        18 => {
            let down = table.honest.iter().filter(|j| !state.peer(**j).up);
            Step::Up { peer: random.pick(down).copied().unwrap_or(peer) }
        }
        19 => likely_clear(random, table, state),
        _ => return uniform_of(random, table, op),
    };
    write_step(step).to_vec()
}

/// The item, or now and then one that the peer gave a share for in an earlier period.
fn or_given(random: &mut Random, state: &State, peer: usize, item: usize) -> usize {
    let p = state.peer(peer).p;
    let given = state.shares.iter().filter(|(k, q, _)| *k == peer && *q < p);
    match random.pick(given) {
        Some((_, _, given)) if random.once_in(3) => *given,
        _ => item,
    }
}

/// The number of a hash entry; mostly one that helps the peer to back.
fn pick_hash(random: &mut Random, table: &Table, state: &State, peer: usize) -> usize {
    let next = state.peer(peer).c;
    let own = state.peer(peer).board(table, next);
    let any = random.once_in(3);
    let fits = |e: &usize| match &state.bag[*e] {
        Entry::Hash { period, board, .. } => any || *period == next && *board == own,
        _ => false,
    };
    random.pick((0..state.bag.len()).filter(fits)).unwrap_or(0)
}

fn pick_backing(random: &mut Random, state: &State) -> usize {
    let backing = |e: &usize| state.backing(*e).is_some();
    random.pick((0..state.bag.len()).filter(backing)).unwrap_or(0)
}

fn false_step(random: &mut Random, table: &Table, state: &State, op: u8, item: usize) -> Step {
    let peer = random.pick(liars(table).into_iter()).unwrap_or(1);
    let period = random.below(table.periods);
    let (period, board) = match random.pick(state.bag.iter()) {
        Some(Entry::Hash { period, board, .. }) if random.once_in(2) => (*period, bits(board)),
        _ if random.once_in(5) => (period, random.bits() & all_items(table.m())),
        _ => (period, random.bits() & bits(&state.posted)),
    };
    match op {
        13 => Step::FalseSignature { peer, period, item },
        14 => Step::FalseShare { peer, period, item },
        15 => Step::FalseHash { peer, period, board },
        _ => Step::FalseBacking { peer, period, board },
    }
}
