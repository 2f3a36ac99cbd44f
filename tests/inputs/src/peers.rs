//! The peers of a random table: what each of them weighs, of document 02's P8, and what
//! some of them weigh together. In the older seasons each weighs 1.

use crate::random::Random;
use crate::tables::random_season;
use reference::season::Season;
use reference::table::{write_table_of, write_weighted, Table};
use std::collections::BTreeSet;

pub struct Peers {
    pub season: Season,
    /// Of peer 1 first.
    pub weights: Vec<u8>,
}

impl Peers {
    /// So many, of any season.
    pub fn random(random: &mut Random, n: usize) -> Peers {
        let season = random_season(random);
        Peers::of(random, season, n)
    }

    /// The same of a season.
    pub fn of(random: &mut Random, season: Season, n: usize) -> Peers {
        let weights = if season.has_weights() { weights(random, n) } else { vec![1; n] };
        Peers { season, weights }
    }

    /// Those of a table.
    pub fn of_table(table: &Table) -> Peers {
        let weights = table.weights.iter().map(|weight| *weight as u8).collect();
        Peers { season: table.season, weights }
    }

    /// W, the sum of all weights.
    pub fn sum(&self) -> usize {
        self.weights.iter().map(|weight| *weight as usize).sum()
    }

    /// The least threshold: twice W divided by three, rounded down, plus one.
    pub fn least(&self) -> usize {
        2 * self.sum() / 3 + 1
    }

    /// The least threshold, or now and then a higher one, up to W.
    pub fn threshold(&self, random: &mut Random) -> usize {
        let (least, sum) = (self.least(), self.sum());
        [least, least, least, least, random.between(least, sum), sum][random.below(6)]
    }

    /// Peers in the order drawn, without those by whom they would weigh more than that.
    pub fn within(&self, random: &mut Random, most: usize) -> Vec<usize> {
        let (mut weight, mut peers) = (0, Vec::new());
        for peer in random.drawn(1..=self.weights.len()) {
            let more = self.weights[peer - 1] as usize;
            if weight + more <= most {
                weight += more;
                peers.push(peer);
            }
        }
        peers
    }

    /// So many liars, or fewer if an honest weight of t would not be left.
    pub fn liars(&self, random: &mut Random, t: usize, most: usize) -> Vec<usize> {
        let mut liars = self.within(random, self.sum() - t);
        liars.truncate(most);
        liars
    }

    /// Peers in the order drawn, until they weigh so much.
    pub fn reaching(&self, random: &mut Random, least: usize) -> Vec<usize> {
        let peers = random.drawn(1..=self.weights.len());
        self.first_reaching(&peers, least)
    }

    /// The first of these peers, until they weigh so much.
    pub fn first_reaching(&self, peers: &[usize], least: usize) -> Vec<usize> {
        up_to(peers.to_vec(), least, |peer| self.weights[peer - 1] as usize)
    }

    /// The bytes of a table with this threshold, these liars and these texts for items.
    pub fn table(&self, t: usize, liars: &[usize], periods: usize, texts: &[Vec<u8>]) -> Vec<u8> {
        let n = self.weights.len();
        let honest = (1..=n).filter(|peer| !liars.contains(peer));
        self.table_of(t, honest.fold(0, |set, peer| set | 1 << (peer - 1)), periods, texts)
    }

    /// The same with a set of honest peers.
    pub fn table_of(&self, t: usize, honest: u16, periods: usize, texts: &[Vec<u8>]) -> Vec<u8> {
        let (t, periods) = (t as u8, periods as u8);
        if self.season.has_weights() {
            write_weighted(&self.weights, t, honest, periods, texts)
        } else {
            write_table_of(self.season, self.weights.len() as u8, t, honest, periods, texts)
        }
    }
}

/// Weights of 1 to 4: any, all alike, the least and the greatest, or one peer great.
pub fn weights(random: &mut Random, n: usize) -> Vec<u8> {
    let alike = random.between(1, 4) as u8;
    match random.below(5) {
        0 => vec![alike; n],
        1 => (0..n).map(|_| [1, 4][random.below(2)]).collect(),
        2 => one_great(random, n),
        _ => (0..n).map(|_| random.between(1, 4) as u8).collect(),
    }
}

/// One peer weighs 4 and all others 1.
pub fn one_great(random: &mut Random, n: usize) -> Vec<u8> {
    let great = random.below(n);
    (0..n).map(|at| if at == great { 4 } else { 1 }).collect()
}

/// The first of these things, until they weigh so much: all if they never do.
fn up_to<T>(things: Vec<T>, least: usize, weight: impl Fn(&T) -> usize) -> Vec<T> {
    let mut sum = 0;
    let is_needed = |thing: &T| {
        let needed = sum < least;
        sum += weight(thing);
        needed
    };
    things.into_iter().take_while(is_needed).collect()
}

/// Things of peers in the order drawn, until the peers are a quorum of the table.
pub fn quorum_of<T>(
    random: &mut Random,
    table: &Table,
    things: impl Iterator<Item = T>,
    peer: impl Fn(&T) -> usize,
) -> Vec<T> {
    up_to(random.drawn(things), table.t, |thing| table.weight(&BTreeSet::from([peer(thing)])))
}
