//! Closes of a period on lent states, of document 02's P3: all peers are honest and due,
//! and all else is anything. Signatures are outside that no database has, and the bag
//! has hashes, backings and boards of the period that no steps have led to.

use crate::closes::{peers_by_number, Closing, Lack, Takes};
use crate::making::Making;
use crate::peers::{quorum_of, Peers};
use crate::random::Random;
use crate::scattered::{entries, put, scattered};
use crate::tables::Shape;
use reference::state::{Board, Entry, State, BAG_SIZE};
use reference::table::{read_table, Table};
use reference::union::union_board;

/// A close of a period from a lent state.
pub struct LentClose {
    pub text: Vec<u8>,
    pub period: usize,
    pub state: State,
    pub calls: Vec<Vec<u8>>,
}

/// A close by its number, in document 02's order or in any that serves, with such takes
/// of the period between.
pub fn lent_close(random: &mut Random, number: usize, takes: Takes, in_turn: bool) -> LentClose {
    let (peers, t) = peers_by_number(random, number, 1);
    let n = peers.weights.len();
    let most = if n > 6 { 6 } else { [3, 6, 12, 40][random.below(4)] };
    let shape = Shape { n, periods: random.between(1, 8), m: random.between(1, most) };
    let text = shape.table_with(random, &peers, t, &[]);
    let table = read_table(&text).expect("a valid table");
    let period = random.below(table.periods);
    let state = lent_state(random, &table, period, takes);
    let board = Some(union_board(&table, &state, period));
    let mut making = Making::lent(random, text, state.clone());
    let unready = making.honest().into_iter().collect();
    let (making, lack, fallen) = (&mut making, Lack::Nothing, None);
    let mut closing =
        Closing { making, period, lack, takes, in_turn, settled: 0, board, unready, fallen };
    closing.exchange();
    let Making { text, steps, .. } = closing.making;
    LentClose { text: text.clone(), period, state, calls: steps.clone() }
}

/// A state in which all peers are up, have closed the period and are to back it next.
fn lent_state(random: &mut Random, table: &Table, period: usize, takes: Takes) -> State {
    let mut state = scattered(random, table);
    for peer in &mut state.peers {
        let p = [period + 1, random.between(period + 1, table.periods)][random.below(2)];
        (peer.up, peer.p, peer.c) = (true, p, period);
        peer.database.retain(|(q, _), _| *q != period);
    }
    (0..table.m()).for_each(|item| know(random, table, &mut state, period, item));
    let first = strays(random, table, &state, period);
    let tries = [random.below(6), random.between(6, 60), 3 * BAG_SIZE][random.below(3)];
    // Where anything is taken, hashes of more boards than one are sent.
    let room = if takes == Takes::Some { BAG_SIZE / 2 } else { BAG_SIZE - 2 * table.n };
    let mut entries = entries(random, table, period, first, tries, room);
    random.shuffle(&mut entries);
    put(&mut state, &entries);
    state
}

/// Some peers are signers of an item, often just enough or just too few, each in the
/// database of one peer or of more. Where there are none all may have signed it outside.
fn know(random: &mut Random, table: &Table, state: &mut State, period: usize, item: usize) {
    let all = 1..=table.n;
    let signers = match random.below(5) {
        0 => Vec::new(),
        1 => quorum_of(random, table, all.clone(), |peer| *peer),
        2 => Peers::of_table(table).within(random, table.t - 1),
        3 => all.clone().collect(),
        _ => random.some_of(50, all.clone()),
    };
    if signers.is_empty() && random.once_in(2) {
        state.signatures.extend(all.clone().map(|signer| (signer, period, item)));
    }
    let spread = [0, 20, 60][random.below(3)];
    for signer in signers {
        let first = random.between(1, table.n);
        for peer in random.some_of(spread, all.clone()).into_iter().chain([first]) {
            state.peer_mut(peer).record(signer, period, item);
        }
    }
}

/// Entries of the period now and then: hashes, backings and a board of the union's board
/// and of any board, and hashes of the boards that the peers have.
fn strays(random: &mut Random, table: &Table, state: &State, period: usize) -> Vec<Entry> {
    let mut strays = Vec::new();
    let other: Board = random.some_of(50, 0..table.m()).into_iter().collect();
    for board in [union_board(table, state, period), other] {
        let of = || board.clone();
        let hash = |signer| Entry::Hash { signer, period, board: of() };
        let backing = |signer| Entry::Backing { signer, period, board: of() };
        let most = [0, 0, 50, 100];
        let [hashes, backings] = [0, 1].map(|_| most[random.below(most.len())]);
        strays.extend(random.some_of(hashes, 1..=table.n).into_iter().map(hash));
        strays.extend(random.some_of(backings, 1..=table.n).into_iter().map(backing));
        if random.once_in(4) {
            strays.push(Entry::Board { period, board: of() });
        }
    }
    if random.once_in(4) {
        let own = |signer| state.peer(signer).board(table, period);
        strays.extend((1..=table.n).map(|k| Entry::Hash { signer: k, period, board: own(k) }));
    }
    strays
}
