//! Every kind of rehearsal, and how many of each are made.

use crate::clears::{cleared, full_and_cleared, shows_clears, shows_room};
use crate::counted::*;
use crate::given::{shows_two_days, two_days};
use crate::odd::*;
use crate::places::{shows_places, two_places};
use crate::quorums::shows_weights;
use crate::random::Random;
use crate::rehearsed::Rehearsed;
use crate::runs::*;
use crate::unequal::unequal;
use crate::wide::*;
use reference::state::BAG_SIZE;

pub struct Kind {
    /// How many of them a round has.
    times: usize,
    pub name: &'static str,
    /// Makes one, given its number among those of its kind.
    make: Make,
    /// Whether a rehearsal is of this kind, as far as its bytes tell.
    pub fits: fn(&Rehearsed) -> bool,
}

type Make = fn(&mut Random, usize) -> Vec<u8>;

const fn kind(times: usize, name: &'static str, make: Make, fits: fn(&Rehearsed) -> bool) -> Kind {
    Kind { times, name, make, fits }
}

pub static KINDS: [Kind; 38] = [
    kind(34, "a run", run, |r| r.is(|o| o.answers.len() >= 20)),
    kind(16, "shuffled steps", shuffled, |r| r.is(|o| o.answers.len() >= 10)),
    kind(16, "repeated steps", repeated, |r| r.is(|o| o.answers.len() >= 10)),
    kind(16, "lost steps", lost, |r| r.outcome.is_ok()),
    kind(14, "periods that go well", good_periods, |r| r.is(went_well)),
    kind(6, "a full bag", full_bag, |r| r.is(|o| o.state.bag.len() == BAG_SIZE)),
    kind(12, "a short tail", short_tail, |r| r.is(|o| (r.input.len() - o.end) % 13 > 0)),
    kind(10, "no items", no_items, |r| r.is(|o| o.table.m() == 0 && o.answers.len() >= 20)),
    kind(6, "64 items", all_items, |r| r.is(|o| o.table.m() == 64)),
    kind(8, "one peer", one_peer, |r| r.is(|o| o.table.n == 1)),
    kind(8, "16 peers", all_peers, |r| r.is(|o| o.table.n == 16)),
    kind(8, "one period", one_period, |r| r.is(|o| o.table.periods == 1)),
    kind(8, "8 periods", all_periods, |r| r.is(|o| o.table.periods == 8)),
    kind(1, "every database full", databases, |r| r.is(|o| filled_sets(o) == 16 * 8 * 64)),
    kind(1, "receipts and boards", boards, |r| r.is(|o| o.state.boards().len() == BAG_SIZE / 2)),
    kind(1, "65,535 bytes", long, |r| r.is(|_| r.input.len() == 65_535)),
    kind(1, "65,536 bytes", longest, |r| r.is(|_| r.input.len() == 65_536)),
    kind(1, "65,537 bytes", too_long, |r| r.is_refused(15) && has_table(r)),
    kind(1, "65,537 bytes, no table", long_garbage, |r| r.is_refused(15) && !has_table(r)),
    kind(32, "a damaged table", damaged, |r| r.outcome.is_err()),
    kind(15, "garbage", garbage, |r| !r.is(|o| !o.answers.contains(&5))),
    kind(18, "0 to 8 bytes", few_bytes, |r| r.input.len() <= 8),
    kind(8, "shorter than the last end", cut, |r| {
        r.is_refused(2) && ends_so(r, |end| end > r.input.len())
    }),
    kind(4, "a last end in the header", end_in_header, |r| {
        r.is_refused(2) && ends_so(r, |end| end <= 6)
    }),
    kind(2, "an end of 65,536", end_of_65536, |r| {
        r.outcome.is_err() && ends_so(r, |end| end == 65_536)
    }),
    kind(6, "a sum that would wrap", wrapped, |r| r.is_refused(2) && wraps(r)),
    kind(6, "posts that come again", posts_again, |r| comes_again(r, 1)),
    kind(6, "receipts that come again", receipts_again, |r| comes_again(r, 6)),
    kind(6, "publishes that come again", publishes_again, |r| comes_again(r, 12)),
    kind(7, "two boards of one period", two_boards, |r| r.is(has_two_boards)),
    kind(7, "audits from two places", two_places, |r| r.is(|o| shows_places(r, o))),
    kind(7, "a slip posted on two days", two_days, |r| r.is(|o| shows_two_days(r, o))),
    kind(7, "peers of unequal weight", unequal, |r| r.is(|o| shows_weights(r, o))),
    kind(7, "a bag that is cleared", cleared, |r| r.is(|o| shows_clears(r, o))),
    kind(4, "a full bag that is cleared", full_and_cleared, |r| r.is(|o| shows_room(r, o))),
    kind(6, "an audit of another season", other_audit, |r| {
        r.is_refused(3) && has_items_of_any_season(r)
    }),
    kind(4, "0 and a byte of no season", no_season, |r| r.is_refused(1) && lacks_its_second(r)),
    kind(4, "weights cut short", few_weights, |r| r.is_refused(1) && lacks_weights(r)),
];

/// The number of rehearsals in a round.
pub fn round() -> usize {
    KINDS.iter().map(|kind| kind.times).sum()
}

/// A rehearsal of a run, by its number: round after round of all kinds.
pub fn rehearsal(seed: u64, number: usize) -> (&'static Kind, Vec<u8>) {
    let (done, mut left) = (number / round(), number % round());
    for kind in &KINDS {
        if left < kind.times {
            let mut random = Random::new(seed, number);
            return (kind, (kind.make)(&mut random, done * kind.times + left));
        }
        left -= kind.times;
    }
    unreachable!("what is left is below the sum of all times")
}
