//! The rehearsals that are measured: those with the shape of the protocol, and the
//! same steps on tables with weights.

use crate::measure::CALLS;
use inputs::protocol::PROTOCOLS;
use reference::table::{read_front, write_weighted, Item, Kind};

pub struct Rehearsal {
    pub name: &'static str,
    pub input: Vec<u8>,
    /// The calls that are measured on it.
    pub calls: &'static [&'static str],
}

/// Weights for the peers of a protocol, and a threshold.
struct Weighted {
    name: &'static str,
    weights: &'static [u8],
    t: u8,
}

/// For each protocol, with the least t. In the second any twelve peers weigh t: a peer
/// hears of that many, so that each step is answered as it is without weights.
const WEIGHTED: [Weighted; 2] = [
    Weighted { name: "four-weighted", weights: &[4, 1, 1, 1], t: 5 },
    Weighted {
        name: "sixteen-weighted",
        weights: &[4, 1, 3, 4, 4, 2, 3, 4, 3, 4, 1, 4, 3, 4, 3, 4],
        t: 35,
    },
];

/// The calls on tables with weights: a sheet has none.
const WEIGHING: &[&str] = &["rehearse", "step", "fresh"];

pub fn rehearsals() -> Vec<Rehearsal> {
    let equal = PROTOCOLS.iter().map(|protocol| (protocol.name, protocol.input(), CALLS));
    let weighted = PROTOCOLS
        .iter()
        .zip(&WEIGHTED)
        .map(|(protocol, weighted)| (weighted.name, weighted.input(&protocol.input()), WEIGHING));
    let all = equal.chain(weighted);
    all.map(|(name, input, calls)| Rehearsal { name, input, calls }).collect()
}

impl Weighted {
    /// The steps of an input behind its table with the weights.
    fn input(&self, input: &[u8]) -> Vec<u8> {
        let (table, end) = read_front(input).expect("a valid table");
        let honest = table.honest.iter().fold(0, |set, peer| set | 1 << (peer - 1));
        let items: Vec<Vec<u8>> = table.items.iter().map(placed).collect();
        let weighted = write_weighted(self.weights, self.t, honest, table.periods as u8, &items);
        [&weighted, &input[end..]].concat()
    }
}

/// The item's text; an audit, which names its place there, is from place 0.
fn placed(item: &Item) -> Vec<u8> {
    let mut text = item.text();
    if item.kind == Kind::Audit {
        text.push(0);
    }
    text
}
