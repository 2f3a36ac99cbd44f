//! The same calls with the clears among them and without, of document 02's P11: until
//! the uncleared run is full both answer alike once entry numbers are translated, and
//! both hold the same but for the hashes that were removed.

use crate::clears::{backed_by_all, is_hash_of};
use reference::form::{read_step, Step};
use reference::state::{Board, Entry, State};
use reference::step::step;
use reference::table::Table;

/// A run with clears, and the same one without.
pub struct Both {
    pub table: Table,
    pub cleared: State,
    pub uncleared: State,
    /// The hashes that clears have removed and that did not come again, and those that
    /// came again.
    removed: Vec<Entry>,
    again: Vec<Entry>,
    /// The cleared run's answer to the call to which the uncleared one answered full:
    /// there the comparison ends.
    pub end: Option<u8>,
    pub seen: Seen,
}

/// What was seen.
#[derive(Debug, Default)]
pub struct Seen {
    pub calls: usize,
    /// Clears answered 6 and 9, and those taken that removed something and nothing.
    pub unnamed: usize,
    pub early: usize,
    pub removing: usize,
    pub idle: usize,
    /// Hears of removed hashes: 0 without the clears, 10 with them.
    pub unknown: usize,
    /// Removed hashes that were sent again.
    pub again: usize,
    /// Hears and publishes of entries with another number, answered 0.
    pub moved: [usize; 2],
    /// Peers that heard less, at the comparisons of both states.
    pub heard_less: usize,
    /// Calls that name no entry of the cleared run, where the uncleared one has all 256.
    pub left_out: usize,
}

/// Which run's entry numbers a call has.
#[derive(Clone, Copy, Debug, PartialEq, Eq)]
pub enum Numbers {
    Uncleared,
    Cleared,
    /// Both get the same ones, as they should not.
    Untranslated,
}

impl Both {
    pub fn fresh(table: &Table) -> Both {
        let [cleared, uncleared] = [0, 1].map(|_| State::fresh(table));
        let (removed, again, end) = (Vec::new(), Vec::new(), None);
        let seen = Seen::default();
        Both { table: table.clone(), cleared, uncleared, removed, again, end, seen }
    }

    /// One call more on both, with the entry numbers of one of them; or how they differ.
    pub fn call(&mut self, numbers: Numbers, bytes: &[u8]) -> Result<(), String> {
        self.seen.calls += 1;
        let told = match (numbers, read_step(bytes)) {
            (_, Ok(Step::Clear { period })) => self.clear(bytes, period),
            (Numbers::Uncleared, _) => {
                match translated(bytes, &self.uncleared, &self.cleared, |entry| entry) {
                    Some(same) => self.call_each(&same, bytes),
                    None => Err("no number for an entry that was removed".to_string()),
                }
            }
            (Numbers::Cleared, _) => {
                let lacking = self.uncleared.bag.len();
                match translated(bytes, &self.cleared, &self.uncleared, |_| lacking) {
                    Some(same) => self.call_each(bytes, &same),
                    None => self.leave_out(bytes),
                }
            }
            (Numbers::Untranslated, _) => self.call_each(bytes, bytes),
        };
        told.map_err(|wrong| format!("{bytes:?}, numbers as {numbers:?}: {wrong}"))
    }

    /// A clear, by the counters of the uncleared run.
    fn clear(&mut self, bytes: &[u8], period: usize) -> Result<(), String> {
        let due = match period {
            _ if period >= self.table.periods => 6,
            _ if period >= backed_by_all(&self.table, &self.uncleared) => 9,
            _ => 0,
        };
        let answer = step(&self.table, &mut self.cleared, bytes);
        if answer != due {
            return Err(format!("{answer}, not {due}"));
        }
        let goes = |entry: &Entry| is_hash_of(entry, period) && !self.removed.contains(entry);
        let gone: Vec<Entry> = self.uncleared.bag.iter().filter(|e| goes(e)).cloned().collect();
        match (due, gone.is_empty()) {
            (6, _) => self.seen.unnamed += 1,
            (9, _) => self.seen.early += 1,
            (_, true) => self.seen.idle += 1,
            (_, false) => self.seen.removing += 1,
        }
        if due == 0 {
            self.again.retain(|entry| !gone.contains(entry));
            self.removed.extend(gone);
        }
        self.same_held()
    }

    /// A call that names no entry of the cleared run. Of the uncleared one every number
    /// names an entry.
    fn leave_out(&mut self, bytes: &[u8]) -> Result<(), String> {
        self.seen.left_out += 1;
        match step(&self.table, &mut self.cleared, bytes) {
            0 => Err("an entry that is not there".to_string()),
            _ => Ok(()),
        }
    }

    /// A call that is no clear, as each of them gets it.
    fn call_each(&mut self, cleared: &Call, uncleared: &Call) -> Result<(), String> {
        let named = names(uncleared).and_then(|entry| self.uncleared.bag.get(entry).cloned());
        let is_removed = named.as_ref().is_some_and(|entry| self.removed.contains(entry));
        let sent = self.sent(uncleared);
        let answer = step(&self.table, &mut self.cleared, cleared);
        let without = step(&self.table, &mut self.uncleared, uncleared);
        if without == 13 {
            self.end = Some(answer);
            return Ok(());
        }
        let is_hear = matches!(read_step(uncleared), Ok(Step::Hear { .. }));
        let due = if is_hear && is_removed && without == 0 { 10 } else { without };
        if answer != due {
            return Err(format!("{answer}, not {due}; without clears {without}"));
        }
        self.seen.unknown += (due != without) as usize;
        if without == 0 {
            self.seen.moved[is_hear as usize] += (cleared != uncleared && due == 0) as usize;
            sent.into_iter().for_each(|hash| self.send(hash));
        }
        if self.seen.calls.is_multiple_of(16) {
            self.same_held()?;
        }
        Ok(())
    }

    /// The hash that a call sends if it is taken.
    fn sent(&self, bytes: &Call) -> Option<Entry> {
        let (signer, period, board) = match read_step(bytes) {
            Ok(Step::Hash { peer, period }) if (1..=self.table.n).contains(&peer) => {
                (peer, period, self.uncleared.peer(peer).board(&self.table, period))
            }
            Ok(Step::FalseHash { peer, period, board }) => {
                (peer, period, (0..64).filter(|i| board >> i & 1 == 1).collect::<Board>())
            }
            _ => return None,
        };
        Some(Entry::Hash { signer, period, board })
    }

    /// A hash that is sent is no longer removed.
    fn send(&mut self, hash: Entry) {
        let at = self.removed.iter().position(|entry| *entry == hash);
        if let Some(at) = at {
            self.again.push(self.removed.swap_remove(at));
            self.seen.again += 1;
        }
    }

    /// What both hold is the same, but for what was removed; or what differs.
    pub fn same_held(&mut self) -> Result<(), String> {
        let [with, without] = [&self.cleared, &self.uncleared].map(|state| {
            let mut state = state.clone();
            state.bag.retain(|entry| !matches!(entry, Entry::Hash { .. }));
            state.peers.iter_mut().for_each(|peer| peer.heard.clear());
            state
        });
        if with != without {
            return Err(format!("backings, boards or other things: {with:?}, {without:?}"));
        }
        self.same_entries()?;
        (1..=self.table.n).try_for_each(|peer| self.same_heard(peer))
    }

    /// An entry is with the clears exactly if it is without them and not removed. Those
    /// that never were removed are in the same order, the others as they came again.
    fn same_entries(&self) -> Result<(), String> {
        let moves = |entry: &Entry| self.removed.contains(entry) || self.again.contains(entry);
        let stay = |bag: &[Entry]| -> Vec<Entry> {
            bag.iter().filter(|entry| !moves(entry)).cloned().collect()
        };
        let again = self.cleared.bag.iter().filter(|entry| self.again.contains(entry));
        let same = stay(&self.cleared.bag) == stay(&self.uncleared.bag)
            && again.eq(self.again.iter())
            && self.removed.iter().all(|entry| self.uncleared.bag.contains(entry))
            && !self.removed.iter().any(|entry| self.cleared.bag.contains(entry));
        same.then_some(()).ok_or_else(|| format!("other entries, removed {:?}", self.removed))
    }

    /// What a peer heard is the same, less hashes of periods that every honest peer has
    /// backed.
    fn same_heard(&mut self, peer: usize) -> Result<(), String> {
        let heard = |state: &State| -> Vec<Entry> {
            state.peer(peer).heard.iter().map(|entry| state.bag[*entry].clone()).collect()
        };
        let (with, without) = (heard(&self.cleared), heard(&self.uncleared));
        let backed = backed_by_all(&self.table, &self.uncleared);
        let may_lack = |entry: &&Entry| (0..backed).any(|period| is_hash_of(entry, period));
        let mut lacking = without.iter().filter(|entry| !with.contains(entry));
        if !with.iter().all(|entry| without.contains(entry)) || !lacking.all(|e| may_lack(&e)) {
            return Err(format!("peer {peer} heard {with:?}, and without clears {without:?}"));
        }
        self.seen.heard_less += (with.len() < without.len()) as usize;
        Ok(())
    }
}

/// The bytes of a call, and where the number of an entry stands in them.
type Call = [u8];
const ENTRY: usize = 4;

/// The entry that a call names.
fn names(bytes: &Call) -> Option<usize> {
    match read_step(bytes) {
        Ok(Step::Hear { entry, .. } | Step::Publish { entry }) => Some(entry),
        _ => None,
    }
}

/// The call with the number that its entry has in the other run: that run's bag length
/// if it is not there. If it names none, the number is made so. None if that is no byte.
fn translated(
    bytes: &Call,
    from: &State,
    to: &State,
    lacking: impl Fn(usize) -> usize,
) -> Option<Vec<u8>> {
    let number = |entry: usize| match from.bag.get(entry) {
        Some(named) => to.bag.iter().position(|e| e == named).unwrap_or(to.bag.len()),
        None => lacking(entry),
    };
    let Some(entry) = names(bytes).map(number) else {
        return Some(bytes.to_vec());
    };
    let mut same = bytes.to_vec();
    same[ENTRY] = entry.try_into().ok()?;
    Some(same)
}
