//! Engines that go wrong on purpose at document 02's P6: what bars a peer from a
//! receipt share is judged by another rule, or elsewhere. Each must be found.

use crate::layout::{OPEN, RECEIPTED, SHARED, SIGNED};
use crate::{Engine, PLAIN};
use reference::form::{read_step, Step};
use reference::table::read_table;
use std::ops::Range;

/// What an engine can look at when a peer is to do something with an item.
pub struct Asking<'a> {
    state: &'a [u8],
    peer: usize,
    item: usize,
    open: usize,
    /// The answer if nothing were given.
    answer: u8,
}

/// The place of the set of peers for a period and an item, from SIGNED or SHARED.
fn set_at(from: usize, period: usize, item: usize) -> usize {
    from + 2 * (64 * period + item)
}

impl Asking<'_> {
    /// The peers in such a set, peer 1 as the bit worth 1.
    fn peers(&self, from: usize, period: usize, item: usize) -> u32 {
        let at = set_at(from, period, item);
        u16::from_le_bytes([self.state[at], self.state[at + 1]]) as u32
    }

    /// Those that gave a share for the item in a period.
    fn sharers(&self, period: usize) -> u32 {
        self.peers(SHARED, period, self.item)
    }

    /// Whether the peer is one of them.
    fn is_among(&self, peers: u32) -> bool {
        peers >> (self.peer - 1) & 1 == 1
    }

    /// Whether the peer gave a share for the item in one of these periods.
    fn gave_in(&self, mut periods: Range<usize>) -> bool {
        periods.any(|q| self.is_among(self.sharers(q)))
    }

    fn gave_before(&self) -> bool {
        self.gave_in(0..self.open)
    }

    /// Whether some period before the open one is so.
    fn before(&self, is: impl Fn(usize) -> bool) -> bool {
        (0..self.open).any(is)
    }

    /// Whether the item has a receipt of a period.
    fn has_receipt(&self, period: usize) -> bool {
        self.state[RECEIPTED + 8 * period + self.item / 8] >> (self.item % 8) & 1 == 1
    }
}

/// The peer and the item that a step names, if the table has them.
fn named(table: &[u8], step: &[u8]) -> Option<(usize, usize)> {
    let table = read_table(table).ok()?;
    let (peer, item) = match read_step(step) {
        Ok(Step::Hand { peer, item } | Step::Sign { peer, item } | Step::Share { peer, item }) => {
            (peer, item)
        }
        _ => return None,
    };
    ((1..=table.n).contains(&peer) && item < table.m()).then_some((peer, item))
}

/// A step of the op is refused with 17 by this rule, after 9 and before 12, and a
/// share by no other.
fn refused(
    op: u8,
    table: &[u8],
    state: &mut [u8],
    step: &[u8],
    is_given: fn(&Asking) -> bool,
) -> u8 {
    let Some((peer, item)) = named(table, step).filter(|_| step[0] == op) else {
        return (PLAIN.step)(table, state, step);
    };
    // Without the shares for the item no peer gave one.
    let mut after = state.to_vec();
    (0..8).for_each(|q| after[set_at(SHARED, q, item)..][..2].fill(0));
    let answer = (PLAIN.step)(table, &mut after, step);
    let open = state[OPEN + peer - 1] as usize;
    if [0, 12].contains(&answer) && is_given(&Asking { state, peer, item, open, answer }) {
        return 17;
    }
    if answer == 0 {
        // The step has joined something, and so do the shares that were left out.
        let all = after.iter().zip(state.iter()).map(|(new, old)| new | old).collect::<Vec<u8>>();
        state.copy_from_slice(&all);
    }
    answer
}

fn share(table: &[u8], state: &mut [u8], step: &[u8], is_given: fn(&Asking) -> bool) -> u8 {
    refused(5, table, state, step, is_given)
}

const fn wrong(name: &'static str, step: fn(&[u8], &mut [u8], &[u8]) -> u8) -> Engine {
    Engine { name, step, ..PLAIN }
}

/// By the rule itself, and else like those below: it must not be found.
pub const RIGHT_SHARES: Engine = wrong("given in an earlier period", |table, state, step| {
    share(table, state, step, |asking| asking.gave_before())
});

/// Their shares are wrong.
pub const WRONG_SHARES: [Engine; 11] = [
    wrong("the refusal left out", |table, state, step| share(table, state, step, |_| false)),
    wrong("the open period included", |table, state, step| {
        share(table, state, step, |asking| asking.gave_in(0..asking.open + 1))
    }),
    wrong("period 0 not looked at", |table, state, step| {
        share(table, state, step, |asking| asking.gave_in(1..asking.open))
    }),
    wrong("the last period alone looked at", |table, state, step| {
        share(table, state, step, |asking| {
            asking.gave_in(asking.open.saturating_sub(1)..asking.open)
        })
    }),
    wrong("given after short", |table, state, step| {
        share(table, state, step, |asking| asking.answer == 0 && asking.gave_before())
    }),
    wrong("any peer's share bars", |table, state, step| {
        share(table, state, step, |asking| asking.before(|q| asking.sharers(q) != 0))
    }),
    wrong("the next peer's share bars", |table, state, step| {
        share(table, state, step, |asking| {
            asking.before(|q| asking.sharers(q) >> asking.peer & 1 == 1)
        })
    }),
    wrong("a share for any item bars", |table, state, step| {
        share(table, state, step, |asking| {
            let any = |q| (0..64).any(|item| asking.is_among(asking.peers(SHARED, q, item)));
            asking.before(any)
        })
    }),
    wrong("a signature taken for a share", |table, state, step| {
        share(table, state, step, |asking| {
            asking.before(|q| asking.is_among(asking.peers(SIGNED, q, asking.item)))
        })
    }),
    wrong("a receipt taken for a share", |table, state, step| {
        share(table, state, step, |asking| asking.before(|q| asking.has_receipt(q)))
    }),
    LATER_COUNTED,
];

/// Only a lent state has an honest peer's share of a later period.
pub const LATER_COUNTED: Engine = wrong("a later period counted too", |table, state, step| {
    share(table, state, step, |asking| asking.gave_before() || asking.gave_in(asking.open + 1..8))
});

/// What is given may not be held or signed again.
pub const WRONG_ELSEWHERE: [Engine; 2] = [
    wrong("not held again", |table, state, step| {
        refused(2, table, state, step, |asking| asking.gave_before())
    }),
    wrong("not signed again", |table, state, step| {
        refused(3, table, state, step, |asking| asking.gave_before())
    }),
];
