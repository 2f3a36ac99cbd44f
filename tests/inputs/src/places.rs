//! Audits of one ballot from two places: such items, rehearsals with them, and
//! where they show.

use crate::making::Making;
use crate::peers::Peers;
use crate::random::Random;
use crate::rehearsed::{Outcome, Rehearsed};
use crate::tables::{audit, placed_season, random_items};
use reference::form::Step;
use reference::season::Season::New;
use reference::state::State;
use reference::table::{Item, Kind, Table};

/// A ballot that no random item is of.
pub const FREE: u32 = 1_000;

/// Two audits of that ballot, from places that are the same, or not.
pub fn two_audits(random: &mut Random, same: bool) -> Vec<Vec<u8>> {
    let one = audit(random, New, FREE);
    let mut other = one.clone();
    if !same {
        other[5] ^= random.between(1, 255) as u8;
    }
    vec![one, other]
}

/// A period that goes well with one of two audits on its board; in the next one all
/// are handed the other.
pub fn two_places(random: &mut Random, number: usize) -> Vec<u8> {
    let (n, m) = ([1, 2, 3, 4, 5, 6, 16][number % 7], random.below(6));
    let mut texts = [random_items(random, &[New], m), two_audits(random, false)].concat();
    random.shuffle(&mut texts);
    let season = placed_season(random);
    let peers = Peers::of(random, season, n);
    let (t, most) = (peers.least(), random.below(n));
    let liars = peers.liars(random, t, most);
    let text = peers.table(t, &liars, random.between(2, 3), &texts);
    let mut making = Making::on(random, text);
    let (mut items, audits) = (making.fair_items((40 / n / n).clamp(1, 4)), making.of_ballot(FREE));
    items.retain(|item| !audits.contains(item));
    items.push(audits[0]);
    making.good_period(0, &items);
    making.together([Step::Post { item: audits[1] }].into_iter());
    let hand = |peer| Step::Hand { peer, item: audits[1] };
    making.together(making.honest().into_iter().map(hand));
    making.wander(20);
    making.input()
}

impl Making<'_> {
    /// The items of a ballot, in any order.
    fn of_ballot(&mut self, ballot: u32) -> Vec<usize> {
        let items = &self.table.items;
        self.random.drawn((0..items.len()).filter(|item| items[*item].ballot == ballot))
    }
}

/// Whether a call was refused for two places and nothing else: an item of a ballot
/// that has no votes.
pub fn is_clash_of_places(table: &Table, step: &[u8], answer: u8) -> bool {
    let is_vote = |item: &Item| matches!(item.kind, Kind::Vote(_));
    answer == 11 && {
        let ballot = table.items[step[4] as usize].ballot;
        !table.items.iter().any(|item| item.ballot == ballot && is_vote(item))
    }
}

/// Whether another audit of an audit's ballot is in the table, from another place.
fn has_other_place(table: &Table, item: &Item) -> bool {
    let is_other = |other: &Item| match (&item.kind, &other.kind) {
        (Kind::PlacedAudit(here), Kind::PlacedAudit(there)) => here != there,
        _ => false,
    };
    table.items.iter().any(|other| other.ballot == item.ballot && is_other(other))
}

/// The number of receipts for one of several audits of a ballot.
pub fn receipts_of_places(table: &Table, state: &State) -> usize {
    let receipts = state.receipts.iter();
    receipts.filter(|(_, item)| has_other_place(table, &table.items[*item])).count()
}

/// Whether a rehearsal has both.
pub fn shows_places(rehearsed: &Rehearsed, outcome: &Outcome) -> bool {
    let clash = |(step, answer): (&[u8], u8)| is_clash_of_places(&outcome.table, step, answer);
    rehearsed.calls().any(clash) && receipts_of_places(&outcome.table, &outcome.state) > 0
}
