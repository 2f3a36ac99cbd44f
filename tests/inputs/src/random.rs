//! A small generator (xorshift), and the seed of a run.

use std::env;
use std::time::{SystemTime, UNIX_EPOCH};

/// The seed of this run, printed: from the clock, or BOARD_SEED if that is set.
pub fn run_seed() -> u64 {
    let seed = match env::var("BOARD_SEED") {
        Ok(text) => text.parse().expect("BOARD_SEED is a number"),
        Err(_) => SystemTime::now().duration_since(UNIX_EPOCH).unwrap().as_micros() as u64,
    };
    println!("seed {seed}; BOARD_SEED={seed} repeats this run");
    seed
}

pub struct Random(u64);

impl Random {
    /// The generator for a part of a run, so numbered.
    pub fn new(seed: u64, number: usize) -> Random {
        Random(mixed(mixed(seed).wrapping_add(number as u64)).max(1))
    }

    pub fn bits(&mut self) -> u64 {
        self.0 ^= self.0 << 13;
        self.0 ^= self.0 >> 7;
        self.0 ^= self.0 << 17;
        self.0.wrapping_mul(0x2545_F491_4F6C_DD1D)
    }

    /// A number below the bound; 0 if the bound is 0.
    pub fn below(&mut self, bound: usize) -> usize {
        ((self.bits() >> 33) as usize) % bound.max(1)
    }

    /// A number from low to high, both among them.
    pub fn between(&mut self, low: usize, high: usize) -> usize {
        low + self.below(high - low + 1)
    }

    /// True once in so many times.
    pub fn once_in(&mut self, times: usize) -> bool {
        self.below(times) == 0
    }

    /// True so many times in a hundred.
    pub fn chance(&mut self, percent: usize) -> bool {
        self.below(100) < percent
    }

    /// Another byte for this one, likely to be in range or just outside it.
    pub fn changed(&mut self, byte: u8) -> u8 {
        match self.below(5) {
            0 => byte ^ 1 << self.below(8),
            1 => byte.wrapping_add(1),
            2 => byte.wrapping_sub(1),
            3 => self.below(4) as u8,
            _ => self.bits() as u8,
        }
    }

    /// One of those given, if there are any.
    pub fn pick<T>(&mut self, from: impl Iterator<Item = T>) -> Option<T> {
        let mut all: Vec<T> = from.collect();
        let at = self.below(all.len());
        (at < all.len()).then(|| all.swap_remove(at))
    }

    /// Each of those given, so many times in a hundred.
    pub fn some_of<T>(&mut self, percent: usize, from: impl Iterator<Item = T>) -> Vec<T> {
        from.filter(|_| self.chance(percent)).collect()
    }

    pub fn shuffle<T>(&mut self, list: &mut [T]) {
        for k in (1..list.len()).rev() {
            list.swap(k, self.below(k + 1));
        }
    }

    /// The things in the order in which they are drawn from all of them.
    pub fn drawn<T>(&mut self, things: impl Iterator<Item = T>) -> Vec<T> {
        let mut rest: Vec<T> = things.collect();
        let mut drawn = Vec::new();
        while !rest.is_empty() {
            drawn.push(rest.swap_remove(self.below(rest.len())));
        }
        drawn
    }

    pub fn bytes(&mut self, length: usize) -> Vec<u8> {
        (0..length).map(|_| self.bits() as u8).collect()
    }
}

/// The bits mixed up, so that neighbours have little in common (splitmix).
fn mixed(bits: u64) -> u64 {
    let bits = bits.wrapping_add(0x9E37_79B9_7F4A_7C15);
    let bits = (bits ^ bits >> 30).wrapping_mul(0xBF58_476D_1CE4_E5B9);
    let bits = (bits ^ bits >> 27).wrapping_mul(0x94D0_49BB_1331_11EB);
    bits ^ bits >> 31
}
