//! The ballot table: header, pairs, items, clash, quorum; refusals 1 to 4.

use crate::header::{read_header, Header};
use crate::pairs::{last_end, read_pairs, write_pairs, Pair};
use crate::season::Season;
use crate::Refusal;
use std::collections::BTreeSet;

/// The least threshold t for n = 1..16, where no peer weighs more than another.
pub const LEAST_THRESHOLD: [usize; 16] = [1, 2, 3, 3, 4, 5, 5, 6, 7, 7, 8, 9, 9, 10, 11, 11];

/// The most periods that a table has, and the most items.
pub const MOST_PERIODS: usize = 8;
pub const MOST_ITEMS: usize = 64;

/// A table that none of 1 to 4 refuses.
#[derive(Clone, Debug, PartialEq, Eq)]
pub struct Table {
    pub season: Season,
    pub n: usize,
    pub t: usize,
    /// The honest peers, counted from 1.
    pub honest: BTreeSet<usize>,
    /// Peer j's weight is `weights[j - 1]`; without weights in the table it is 1.
    pub weights: Vec<usize>,
    /// P, the number of periods.
    pub periods: usize,
    /// The m items, counted from 0.
    pub items: Vec<Item>,
}

/// A ballot and one of three kinds. Two items are the same if their bytes
/// are, which is to say if ballot, kind and preferences are.
#[derive(Clone, Debug, PartialEq, Eq)]
pub struct Item {
    pub ballot: u32,
    pub kind: Kind,
}

#[derive(Clone, Debug, PartialEq, Eq)]
pub enum Kind {
    /// With its 1 to 32 preference bytes.
    Vote(Vec<u8>),
    /// Of the old season.
    Audit,
    /// Of the seasons since, with the place that made it.
    PlacedAudit(u8),
    Cancellation,
}

impl Table {
    pub fn m(&self) -> usize {
        self.items.len()
    }

    pub fn is_honest(&self, peer: usize) -> bool {
        self.honest.contains(&peer)
    }

    /// h, the number of honest peers.
    pub fn honest_count(&self) -> usize {
        self.honest.len()
    }

    /// The sum of peers' weights.
    pub fn weight(&self, peers: &BTreeSet<usize>) -> usize {
        peers.iter().map(|j| self.weights[j - 1]).sum()
    }

    /// W, the sum of all weights.
    pub fn whole_weight(&self) -> usize {
        self.weights.iter().sum()
    }

    /// The honest peers' weight.
    pub fn honest_weight(&self) -> usize {
        self.weight(&self.honest)
    }

    /// Whether the weights of peers sum up to t.
    pub fn is_quorum(&self, peers: &BTreeSet<usize>) -> bool {
        self.weight(peers) >= self.t
    }

    /// Whether items i and k of the table clash.
    pub fn clash(&self, i: usize, k: usize) -> bool {
        clash(&self.items[i], &self.items[k])
    }
}

impl Item {
    /// Its bytes: ballot number (4 bytes, high first), kind byte, and then the
    /// preferences of a vote or the place of an audit.
    pub fn text(&self) -> Vec<u8> {
        let (kind, rest) = match &self.kind {
            Kind::Vote(preferences) => (1, preferences.clone()),
            Kind::Audit => (2, vec![]),
            Kind::PlacedAudit(place) => (2, vec![*place]),
            Kind::Cancellation => (3, vec![]),
        };
        [&self.ballot.to_be_bytes()[..], &[kind], &rest].concat()
    }
}

/// Two different items of one ballot, neither a cancellation, at least one a
/// vote; or two audits of one ballot from different places.
pub fn clash(x: &Item, y: &Item) -> bool {
    x != y
        && x.ballot == y.ballot
        && x.kind != Kind::Cancellation
        && y.kind != Kind::Cancellation
        && (is_vote(x) || is_vote(y) || from_different_places(x, y))
}

fn is_vote(item: &Item) -> bool {
    matches!(item.kind, Kind::Vote(_))
}

/// Whether two audits name different places.
fn from_different_places(x: &Item, y: &Item) -> bool {
    match (&x.kind, &y.kind) {
        (Kind::PlacedAudit(one), Kind::PlacedAudit(other)) => one != other,
        _ => false,
    }
}

/// A table that is all of the bytes given.
pub fn read_table(bytes: &[u8]) -> Result<Table, Refusal> {
    let (header, pairs) = read_start(bytes)?;
    if last_end(&pairs, header.length()) != bytes.len() {
        return Err(Refusal::Pairs);
    }
    finish(bytes, header, &pairs)
}

/// The table at the front of a rehearsal input, and where it ends: at its
/// last pair's end.
pub fn read_front(input: &[u8]) -> Result<(Table, usize), Refusal> {
    let (header, pairs) = read_start(input)?;
    let end = last_end(&pairs, header.length());
    if end > input.len() {
        return Err(Refusal::Pairs);
    }
    Ok((finish(input, header, &pairs)?, end))
}

/// The header and the pairs: 1, and 2 but for the table's end.
fn read_start(bytes: &[u8]) -> Result<(Header, Vec<Pair>), Refusal> {
    let header = read_header(bytes)?;
    let pairs = read_pairs(bytes, header.length(), header.m).ok_or(Refusal::Pairs)?;
    Ok((header, pairs))
}

fn finish(bytes: &[u8], header: Header, pairs: &[Pair]) -> Result<Table, Refusal> {
    Ok(Table {
        season: header.season,
        n: header.n,
        t: header.t,
        honest: header.honest,
        weights: header.weights,
        periods: header.periods,
        items: read_items(bytes, pairs, |kind| header.season.has(kind))?,
    })
}

/// 3 for any item, also one of a kind that is not taken; then 4 for any two.
pub fn read_items(
    bytes: &[u8],
    pairs: &[Pair],
    takes: impl Fn(&Kind) -> bool,
) -> Result<Vec<Item>, Refusal> {
    let mut items = Vec::new();
    for pair in pairs {
        let item = read_item(pair.text(bytes))?;
        if !takes(&item.kind) {
            return Err(Refusal::Item);
        }
        items.push(item);
    }
    for k in 0..items.len() {
        if items[..k].contains(&items[k]) {
            return Err(Refusal::Twin);
        }
    }
    Ok(items)
}

/// 3: length or kind wrong. Ballot number (4 bytes), kind byte, and then the
/// preferences of a vote or, if it names one, the place of an audit.
fn read_item(text: &[u8]) -> Result<Item, Refusal> {
    if text.len() < 5 {
        return Err(Refusal::Item);
    }
    let ballot = u32::from_be_bytes([text[0], text[1], text[2], text[3]]);
    let rest = &text[5..];
    let kind = match (text[4], rest.len()) {
        (1, 1..=32) => Kind::Vote(rest.to_vec()),
        (2, 0) => Kind::Audit,
        (2, 1) => Kind::PlacedAudit(rest[0]),
        (3, 0) => Kind::Cancellation,
        _ => return Err(Refusal::Item),
    };
    Ok(Item { ballot, kind })
}

/// The bytes of a table of the old season, its fields in document 01's order.
/// Nothing is checked.
pub fn write_table(n: u8, t: u8, honest: u16, periods: u8, items: &[Vec<u8>]) -> Vec<u8> {
    write_table_of(Season::Old, n, t, honest, periods, items)
}

/// The same of a season; of the weighted one with weights of 1.
pub fn write_table_of(
    season: Season,
    n: u8,
    t: u8,
    honest: u16,
    periods: u8,
    items: &[Vec<u8>],
) -> Vec<u8> {
    let weights = vec![1; if season.has_weights() { n as usize } else { 0 }];
    write_parts(season, n, &weights, [t, periods], honest, items)
}

/// The bytes of a weighted table, which has as many peers as weights. Nothing is
/// checked.
pub fn write_weighted(
    weights: &[u8],
    t: u8,
    honest: u16,
    periods: u8,
    items: &[Vec<u8>],
) -> Vec<u8> {
    write_parts(Season::Weighted, weights.len() as u8, weights, [t, periods], honest, items)
}

/// Mark, fields, weights, pairs, texts.
fn write_parts(
    season: Season,
    n: u8,
    weights: &[u8],
    [t, periods]: [u8; 2],
    honest: u16,
    items: &[Vec<u8>],
) -> Vec<u8> {
    let [high, low] = honest.to_be_bytes();
    let fields = [n, t, high, low, periods, items.len() as u8];
    let pairs = write_pairs(season.head_length(n as usize), items);
    [season.mark(), &fields, weights, &pairs].concat()
}
