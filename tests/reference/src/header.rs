//! The table's header and, in a weighted table, the weights behind it: refusal 1.

use crate::pairs::two_bytes;
use crate::season::{Season, FIELDS_LENGTH};
use crate::table::{LEAST_THRESHOLD, MOST_ITEMS, MOST_PERIODS};
use crate::Refusal;
use std::collections::BTreeSet;

/// The most that a peer weighs.
const MOST_WEIGHT: usize = 4;

pub struct Header {
    pub season: Season,
    pub n: usize,
    pub t: usize,
    /// The honest peers, counted from 1.
    pub honest: BTreeSet<usize>,
    pub periods: usize,
    pub m: usize,
    /// One for each peer; in the older seasons all are 1.
    pub weights: Vec<usize>,
}

impl Header {
    /// The bytes before the pairs.
    pub fn length(&self) -> usize {
        self.season.head_length(self.n)
    }
}

/// 1: header cut short, or a header field out of range.
pub fn read_header(bytes: &[u8]) -> Result<Header, Refusal> {
    let season = Season::of(bytes);
    let fields = &bytes[season.mark().len()..];
    if fields.len() < FIELDS_LENGTH {
        return Err(Refusal::Header);
    }
    let n = fields[0] as usize;
    let header = Header {
        season,
        n,
        t: fields[1] as usize,
        honest: peers_of(two_bytes(fields, 2) as u16),
        periods: fields[4] as usize,
        m: fields[5] as usize,
        weights: read_weights(season, n, &fields[FIELDS_LENGTH..])?,
    };
    if in_range(&header) {
        Ok(header)
    } else {
        Err(Refusal::Header)
    }
}

/// The weights of n peers, from the bytes behind the fields. 1: too few are there.
fn read_weights(season: Season, n: usize, bytes: &[u8]) -> Result<Vec<usize>, Refusal> {
    if !season.has_weights() {
        return Ok(vec![1; n]);
    }
    let weights = bytes.get(..n).ok_or(Refusal::Header)?;
    Ok(weights.iter().map(|weight| *weight as usize).collect())
}

fn in_range(header: &Header) -> bool {
    let n = header.n;
    (1..=16).contains(&n)
        && header.weights.iter().all(|weight| (1..=MOST_WEIGHT).contains(weight))
        && threshold_in_range(header)
        && header.honest.iter().all(|k| *k <= n)
        && (1..=MOST_PERIODS).contains(&header.periods)
        && header.m <= MOST_ITEMS
}

/// Document 01's table for the older seasons; for weights, of which W is the sum,
/// document 02's 2W < 3t <= 3W.
fn threshold_in_range(header: &Header) -> bool {
    let (n, t) = (header.n, header.t);
    if header.season.has_weights() {
        let sum: usize = header.weights.iter().sum();
        2 * sum < 3 * t && 3 * t <= 3 * sum
    } else {
        (LEAST_THRESHOLD[n - 1]..=n).contains(&t)
    }
}

/// The peers of a 2-byte set: bit k−1 is peer k.
fn peers_of(set: u16) -> BTreeSet<usize> {
    (1..=16).filter(|k| set >> (k - 1) & 1 == 1).collect()
}
