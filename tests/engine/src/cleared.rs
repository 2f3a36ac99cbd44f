//! Clears on lent states, of document 02's P11: bags of any entries, heard by any peers,
//! dishonest ones too, with counters on both sides of the period. What is due is told by
//! how a state was made, and not by an engine.

use crate::layout::encode;
use crate::pair::{Call, Pair};
use crate::Engine;
use inputs::clears::is_hash_of;
use inputs::peers::Peers;
use inputs::random::Random;
use inputs::scattered::{entries, put, scattered, Heard};
use inputs::tables::Shape;
use reference::form::{write_step, Step, STEP_LENGTH};
use reference::state::{Board, Entry, State, BAG_SIZE};
use reference::table::{read_table, Table};

/// A clear asked for on a lent state.
pub struct Asked {
    pub pair: Pair,
    pub period: usize,
    pub due: u8,
    /// The state that is due after it.
    pub after: State,
    entries: Vec<Heard>,
}

impl Asked {
    /// On a random table and a state in which all else is random too.
    pub fn new(random: &mut Random) -> Asked {
        let n = if random.once_in(10) { 16 } else { random.between(1, 5) };
        let peers = Peers::random(random, n);
        let t = random.between(peers.least(), peers.sum());
        let mut liars = random.drawn(1..=n);
        liars.truncate([0, 1, random.below(n + 1), n][random.below(16) / 5]);
        let shape = Shape { n, periods: random.between(1, 8), m: random.between(1, 8) };
        let text = shape.table_with(random, &peers, t, &liars);
        let table = read_table(&text).expect("a valid table");
        let mut state = scattered(random, &table);
        let end = if random.once_in(12) { table.periods } else { table.periods - 1 };
        let period = random.between(0, end);
        let late = put_counters(random, &table, &mut state, period);
        let due = match late {
            _ if period == table.periods => 6,
            true => 9,
            false => 0,
        };
        let entries = drawn_entries(random, &table, period);
        put(&mut state, &entries);
        let mut after = state.clone();
        if due == 0 {
            let stay = entries.iter().filter(|(entry, _)| !is_hash_of(entry, period));
            put(&mut after, &stay.cloned().collect::<Vec<Heard>>());
        }
        Asked { pair: Pair::lent(text, state), period, due, after, entries }
    }

    pub fn step(&self) -> [u8; STEP_LENGTH] {
        write_step(Step::Clear { period: self.period })
    }

    /// How an engine differs from what is due, if it does.
    pub fn compare(&self, engine: &Engine) -> Result<(), String> {
        let (table, before) = (&self.pair.text[..], &self.pair.buffer[..]);
        let (step, answer, after) = (&self.step()[..], self.due, &encode(&self.after)[..]);
        Call { table, before, step, answer, after }.compare(engine)
    }

    /// What the case has, by name.
    pub fn has(&self) -> [(&'static str, bool); 12] {
        let (table, state) = (&self.pair.table, &self.pair.state);
        let taken = self.due == 0;
        let honest = |is: &dyn Fn(usize) -> bool| table.honest.iter().any(|peer| is(*peer));
        let liar = |is: &dyn Fn(usize) -> bool| {
            (1..=table.n).any(|peer| !table.is_honest(peer) && is(peer))
        };
        let backs = |peer: usize| {
            let backing = |(entry, _): &Heard| match entry {
                Entry::Backing { signer, period, .. } => (*signer, *period) == (peer, self.period),
                _ => false,
            };
            self.entries.iter().any(backing)
        };
        let goes = |entry: &Entry| is_hash_of(entry, self.period);
        let first = self.entries.iter().position(|(entry, _)| goes(entry));
        let above = first.map_or(&[][..], |first| &self.entries[first..]);
        let moves = |peer: usize| above.iter().any(|(e, heard)| !goes(e) && heard.contains(&peer));
        let loses = |peer: usize| above.iter().any(|(e, heard)| goes(e) && heard.contains(&peer));
        let (full, late) = (self.entries.len() == BAG_SIZE, self.due == 9);
        [
            ("no honest peer", taken && table.honest.is_empty()),
            ("an honest peer down", taken && honest(&|peer| !state.peer(peer).up)),
            ("c equal to the period", late && honest(&|peer| state.peer(peer).c == self.period)),
            ("a liar's c not above", taken && liar(&|peer| state.peer(peer).c <= self.period)),
            ("an honest backing not there", taken && honest(&|peer| !backs(peer))),
            ("every honest backing there, and 9", late && !honest(&|peer| !backs(peer))),
            ("nothing to remove", taken && first.is_none()),
            ("a heard entry moves", taken && honest(&moves)),
            ("a heard entry goes", taken && honest(&loses)),
            ("one that a liar heard moves", taken && liar(&moves)),
            ("one that a liar heard goes", taken && liar(&loses)),
            ("a full bag", taken && full && first.is_some()),
        ]
    }
}

/// Half of the time some honest peers have not backed the period, and all others have;
/// the liars may have or not. Whether there are such honest peers.
fn put_counters(random: &mut Random, table: &Table, state: &mut State, period: usize) -> bool {
    let mut late = random.drawn(table.honest.iter().copied());
    let most = [0, 0, 1, late.len()][random.below(4)];
    late.truncate(most);
    for j in table.honest.iter().copied() {
        let least = (period + 1).min(table.periods);
        let c = match late.contains(&j) {
            true => [period, random.between(0, period)][random.below(2)],
            false => random.between(least, table.periods),
        };
        let peer = state.peer_mut(j);
        (peer.c, peer.p) = (c, random.between(c, table.periods));
    }
    !late.is_empty()
}

/// Different entries of every kind, often of the period: few, many, or a full bag. Now
/// and then every honest peer's backing is among them.
fn drawn_entries(random: &mut Random, table: &Table, period: usize) -> Vec<Heard> {
    let count = [random.below(6), random.between(6, 60), BAG_SIZE][random.below(3)];
    let period = period.min(table.periods - 1);
    let backing = |signer: &usize| Entry::Backing { signer: *signer, period, board: Board::new() };
    let backed =
        if random.once_in(4) { table.honest.iter().map(backing).collect() } else { vec![] };
    entries(random, table, period, backed, 3 * count, BAG_SIZE)
}
