//! Clears, of document 02's P11: which are likely, rehearsals with them, and where they
//! show.

use crate::making::Making;
use crate::period::{false_hashes, filling_table, posts};
use crate::random::Random;
use crate::rehearsed::{Outcome, Rehearsed};
use crate::tables::Shape;
use reference::form::{bits, read_step, Step};
use reference::state::{Entry, State, BAG_SIZE};
use reference::step::step;
use reference::table::Table;

/// The number of periods that every honest peer has backed.
pub fn backed_by_all(table: &Table, state: &State) -> usize {
    table.honest.iter().map(|peer| state.peer(*peer).c).min().unwrap_or(table.periods)
}

/// Whether an entry is a hash of the period.
pub fn is_hash_of(entry: &Entry, period: usize) -> bool {
    matches!(entry, Entry::Hash { period: q, .. } if *q == period)
}

/// A clear: mostly of a period that has hashes and that every honest peer has backed, or
/// of the first that one of them has not.
pub fn likely_clear(random: &mut Random, table: &Table, state: &State) -> Step {
    let has_hashes = |period: &usize| state.bag.iter().any(|entry| is_hash_of(entry, *period));
    let next = backed_by_all(table, state);
    let any = random.below(table.periods);
    let period = match random.below(5) {
        0 => any,
        1 => next.min(table.periods - 1),
        _ => random.pick((0..next).filter(has_hashes)).unwrap_or(any),
    };
    Step::Clear { period }
}

impl Making<'_> {
    fn clear(&mut self, period: usize) {
        self.together([Step::Clear { period }].into_iter());
    }

    /// The liars send hashes of the empty board, and of the one that the first honest
    /// peer has.
    fn hash_falsely(&mut self, period: usize) {
        let board = bits(&self.state.peer(self.honest()[0]).board(&self.table, period));
        let liars = self.liars();
        let lies = liars.iter().flat_map(|peer| [0, board].map(|board| (*peer, board)));
        self.together(lies.map(|(peer, board)| Step::FalseHash { peer, period, board }));
    }

    /// The hashes of a period are sent again, and all are heard.
    fn send_again(&mut self, period: usize) {
        let honest = self.honest();
        self.together(honest.iter().map(|peer| Step::Hash { peer: *peer, period }));
        self.hash_falsely(period);
        let entries = self.entries(|entry| is_hash_of(entry, period));
        let hear =
            |peer: usize| entries.iter().map(move |entry| Step::Hear { peer, entry: *entry });
        self.together(honest.iter().flat_map(|peer| hear(*peer)));
    }
}

/// Two periods are hashed and heard, then backed and published one after the other. The
/// first is cleared between, so that what was heard of the second must follow, and is
/// sent again.
pub fn cleared(random: &mut Random, number: usize) -> Vec<u8> {
    let n = [1, 2, 3, 4, 5, 6, 16][number % 7];
    let shape = Shape { n, periods: random.between(2, 4), m: random.between(1, 8) };
    let liars = random.below(3);
    let text = shape.honest_table(random, liars);
    let mut making = Making::on(random, text);
    let (honest, items) = (making.honest(), making.fair_items((40 / n / n).clamp(1, 4)));
    for period in [0, 1] {
        let part = items.iter().copied().filter(|item| item % 2 == period).collect::<Vec<_>>();
        making.gather(period, &part);
        making.hash_falsely(period);
        making.agree(period);
        making.clear(period);
    }
    making.back(&honest);
    making.clear(1);
    making.clear(0);
    making.clear(0);
    making.send_again(0);
    making.back(&honest);
    making.publish();
    making.clear(1);
    making.wander(20);
    making.input()
}

/// The bag fills once all have backed a board, and before it is published. A clear makes
/// room for it; then the bag fills again. Every other time there is a clear before too.
pub fn full_and_cleared(random: &mut Random, number: usize) -> Vec<u8> {
    let text = filling_table(random);
    let mut making = Making::on(random, text);
    let (honest, items) = (making.honest(), making.fair_items(2));
    making.gather(0, &items);
    making.agree(0);
    making.clear(0);
    making.back(&honest);
    making.together(posts(&making.table));
    for most in [[BAG_SIZE, BAG_SIZE / 2][number % 2], BAG_SIZE] {
        let hashes = false_hashes(making.random, &making.table);
        making.together(hashes.take(most));
        making.publish();
        making.clear(0);
        making.publish();
        making.send_again(0);
    }
    making.wander(30);
    making.input()
}

/// What clears did in a rehearsal.
#[derive(Debug, Default)]
pub struct Cleared {
    /// Refused, since not every honest peer had backed the period.
    pub early: usize,
    /// Taken: they removed entries, or found none.
    pub removing: usize,
    pub idle: usize,
    /// By them a heard entry got another number.
    pub moved: usize,
    /// By them a heard entry went.
    pub unheard: usize,
    /// Hashes that were removed and came again.
    pub again: usize,
    /// Those in a full bag that made room.
    pub room: usize,
    removed: Vec<Entry>,
}

impl Cleared {
    /// One call, with the states before and after it.
    pub fn count(&mut self, before: &State, bytes: &[u8], answer: u8, after: &State) {
        match (read_step(bytes), answer) {
            (Ok(Step::Clear { .. }), 9) => self.early += 1,
            (Ok(Step::Clear { period }), 0) => self.clear(before, period),
            (Ok(Step::Hash { .. } | Step::FalseHash { .. }), 0) => {
                let new = &after.bag[before.bag.len()..];
                let known = self.removed.len();
                self.removed.retain(|entry| !new.contains(entry));
                self.again += known - self.removed.len();
            }
            _ => {}
        }
    }

    fn clear(&mut self, before: &State, period: usize) {
        let goes = |entry: &usize| is_hash_of(&before.bag[*entry], period);
        let Some(first) = (0..before.bag.len()).find(goes) else {
            self.idle += 1;
            return;
        };
        let heard = |is: &dyn Fn(&usize) -> bool| {
            before.peers.iter().any(|peer| peer.heard.iter().any(is)) as usize
        };
        self.removing += 1;
        self.unheard += heard(&goes);
        self.moved += heard(&|entry| *entry > first && !goes(entry));
        self.room += (before.bag.len() == BAG_SIZE) as usize;
        self.removed.extend(before.bag.iter().filter(|entry| is_hash_of(entry, period)).cloned());
    }

    /// What the clears of a rehearsal did.
    pub fn of(rehearsed: &Rehearsed, outcome: &Outcome) -> Cleared {
        let (mut cleared, mut state) = (Cleared::default(), State::fresh(&outcome.table));
        for (bytes, answer) in rehearsed.calls() {
            let before = state.clone();
            step(&outcome.table, &mut state, bytes);
            cleared.count(&before, bytes, answer, &state);
        }
        cleared
    }
}

/// Whether a rehearsal shows clears: early, taken and idle; heard entries that moved and
/// such that went; hashes that came again.
pub fn shows_clears(rehearsed: &Rehearsed, outcome: &Outcome) -> bool {
    let Cleared { early, removing, idle, moved, unheard, again, .. } =
        Cleared::of(rehearsed, outcome);
    [early, removing, idle, moved, unheard, again].iter().all(|times| *times > 0)
}

/// Whether a clear made room in a full bag, where something was refused before.
pub fn shows_room(rehearsed: &Rehearsed, outcome: &Outcome) -> bool {
    outcome.answers.contains(&13) && Cleared::of(rehearsed, outcome).room > 0
}
