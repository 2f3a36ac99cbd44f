//! The random tables reach what weights can be: every weight, every number of peers, and
//! thresholds at both bounds.

use inputs::random::Random;
use inputs::sorts::in_turn;
use inputs::tables::random_table;
use inputs::weights::SORTS;
use reference::season::Season;
use reference::table::{read_table, Table};
use std::collections::BTreeSet;

/// The tables are the same ones each time.
const SEED: u64 = 8;
const TABLES: usize = 6_000;

/// What weighted tables had.
#[derive(Debug, Default)]
struct Seen {
    tables: usize,
    peers: BTreeSet<usize>,
    weights: BTreeSet<usize>,
    thresholds: BTreeSet<usize>,
    /// Thresholds that are the least for W, W itself, between, and above n.
    least: usize,
    most: usize,
    between: usize,
    above_n: usize,
}

impl Seen {
    fn add(&mut self, table: &Table) {
        let (t, sum) = (table.t, table.whole_weight());
        let is_least = 3 * (t - 1) <= 2 * sum;
        self.tables += 1;
        self.peers.insert(table.n);
        self.weights.extend(&table.weights);
        self.thresholds.insert(t);
        self.least += is_least as usize;
        self.most += (t == sum) as usize;
        self.between += (!is_least && t < sum) as usize;
        self.above_n += (t > table.n) as usize;
    }

    fn shows_enough(&self) {
        assert!(self.peers.iter().copied().eq(1..=16) && self.weights.iter().copied().eq(1..=4));
        let bounds = [self.least, self.most, self.between, self.above_n];
        assert!(bounds.iter().all(|times| *times > self.tables / 20));
    }
}

#[test]
fn a_third_of_the_tables_is_weighted() {
    let (mut seen, mut seasons) = (Seen::default(), [0; 3]);
    for number in 0..TABLES {
        let text = random_table(&mut Random::new(SEED, number), 16);
        let table = read_table(&text).expect("a valid table");
        seasons[table.season as usize] += 1;
        if table.season == Season::Weighted {
            seen.add(&table);
        }
    }
    println!("by seasons {seasons:?}; {seen:?}");
    assert!(seasons.iter().all(|tables| (3 * TABLES / 10..4 * TABLES / 10).contains(tables)));
    seen.shows_enough();
}

/// Up to the threshold of 64, which is that of sixteen peers of weight 4.
#[test]
fn sorts_reach_every_threshold() {
    let mut seen = Seen::default();
    for number in 0..200 * SORTS.len() {
        let (_, text) = in_turn(&SORTS, SEED, number);
        read_table(&text).into_iter().for_each(|table| seen.add(&table));
    }
    println!("{seen:?}");
    assert!(seen.thresholds.iter().copied().eq(1..=64));
    seen.shows_enough();
}
