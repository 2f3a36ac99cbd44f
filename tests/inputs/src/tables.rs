//! Random tables that are valid, of every season.

use crate::peers::Peers;
use crate::random::Random;
use reference::season::{Season, SEASONS};

/// What a table is asked to have.
pub struct Shape {
    pub n: usize,
    pub periods: usize,
    pub m: usize,
}

impl Shape {
    /// With at most so many peers.
    pub fn random(random: &mut Random, most_peers: usize) -> Shape {
        let most_items = [3, 6, 12, 64][random.below(4)];
        Shape {
            n: random.between(1, most_peers),
            periods: random.between(1, 8),
            m: random.between(0, most_items),
        }
    }

    /// The bytes of a valid table of this shape.
    pub fn table(self, random: &mut Random) -> Vec<u8> {
        let season = random_season(random);
        self.table_of(random, season)
    }

    /// The same of a season.
    pub fn table_of(self, random: &mut Random, season: Season) -> Vec<u8> {
        let items = random_items(random, &[season], self.m);
        self.with_texts(random, season, &items)
    }

    /// The same with these texts for items, which may be none.
    pub fn with_texts(self, random: &mut Random, season: Season, texts: &[Vec<u8>]) -> Vec<u8> {
        let peers = Peers::of(random, season, self.n);
        let t = peers.threshold(random);
        let honest = any_honest(random, self.n);
        peers.table_of(t, honest, self.periods, texts)
    }

    /// A valid table with the least threshold, at least that much honest weight, and so
    /// many liars if that leaves enough.
    pub fn honest_table(self, random: &mut Random, liars: usize) -> Vec<u8> {
        let peers = Peers::random(random, self.n);
        let t = peers.least();
        let liars = peers.liars(random, t, liars);
        self.table_with(random, &peers, t, &liars)
    }

    /// A valid table with these peers, of whom some are liars, and this threshold.
    pub fn table_with(
        self,
        random: &mut Random,
        peers: &Peers,
        t: usize,
        liars: &[usize],
    ) -> Vec<u8> {
        let items = random_items(random, &[peers.season], self.m);
        peers.table(t, liars, self.periods, &items)
    }
}

/// Any of so many peers as a set: often all, and now and then none.
pub fn any_honest(random: &mut Random, n: usize) -> u16 {
    let (all, some) = (u16::MAX >> (16 - n), random.bits() as u16);
    all & [all, some, some | random.bits() as u16, 0][random.below(31) / 10]
}

/// Any season, each as often as the others.
pub fn random_season(random: &mut Random) -> Season {
    SEASONS[random.below(SEASONS.len())]
}

/// A season whose audits name their places.
pub fn placed_season(random: &mut Random) -> Season {
    [Season::New, Season::Weighted][random.below(2)]
}

/// The bytes of a valid table with at most so many peers.
pub fn random_table(random: &mut Random, most_peers: usize) -> Vec<u8> {
    Shape::random(random, most_peers).table(random)
}

/// Different items, of few ballot numbers, with audits of the seasons given; now
/// and then most of them are audits.
pub fn random_items(random: &mut Random, seasons: &[Season], m: usize) -> Vec<Vec<u8>> {
    let kinds = [&[1, 1, 2, 3][..], &[1, 2, 2, 2, 2, 3]][random.below(2)];
    let mut items: Vec<Vec<u8>> = Vec::new();
    while items.len() < m {
        let ballot = random.below(1 + m / 3) as u32;
        let season = seasons[random.below(seasons.len())];
        let item = match kinds[random.below(kinds.len())] {
            1 => vote(random, ballot),
            2 => audit(random, season, ballot),
            _ => [&ballot.to_be_bytes()[..], &[3]].concat(),
        };
        if !items.contains(&item) {
            items.push(item);
        }
    }
    items
}

fn vote(random: &mut Random, ballot: u32) -> Vec<u8> {
    let most = [1, 2, 32][random.below(3)];
    let length = random.between(1, most);
    [&ballot.to_be_bytes()[..], &[1], &random.bytes(length)].concat()
}

/// An audit of the season, from one of few places.
pub fn audit(random: &mut Random, season: Season, ballot: u32) -> Vec<u8> {
    let place = [0, 1, 2, 255][random.below(4)];
    let place = if season.has_places() { &[place][..] } else { &[] };
    [&ballot.to_be_bytes()[..], &[2], place].concat()
}

/// Where the header's fields begin in a table.
pub fn fields_at(table: &[u8]) -> usize {
    Season::of(table).mark().len()
}

/// The bytes of a table before its pairs, by the number of peers that it says.
pub fn head(table: &[u8]) -> usize {
    let n = table.get(fields_at(table)).copied().unwrap_or(0);
    Season::of(table).head_length(n as usize)
}

/// The number of items that a table says; 0 if it is cut short.
pub fn item_count(table: &[u8]) -> usize {
    table.get(fields_at(table) + 5).copied().unwrap_or(0) as usize
}

/// The place of pair k's offset in a table, and of its length two bytes on.
pub fn pair_at(table: &[u8], k: usize) -> usize {
    pair_behind(head(table), k)
}

/// The same behind a head of so many bytes.
pub fn pair_behind(head: usize, k: usize) -> usize {
    head + 4 * k
}

/// A number of two bytes, high byte first.
pub fn number(table: &[u8], at: usize) -> usize {
    256 * table[at] as usize + table[at + 1] as usize
}

/// Adds to a number of two bytes.
pub fn add(bytes: &mut [u8], at: usize, by: isize) {
    let sum = (number(bytes, at) as u16).wrapping_add(by as u16);
    bytes[at..at + 2].copy_from_slice(&sum.to_be_bytes());
}
