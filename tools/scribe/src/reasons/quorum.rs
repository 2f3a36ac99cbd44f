//! Peers beside the t that are needed: by their number, or in a table that has
//! weights by these.

use super::phrases::comma_list;
use reference::table::Table;
use std::collections::BTreeSet;

/// Whether the peers are fewer than needed, or weigh less.
pub fn is_short(table: &Table, peers: &BTreeSet<usize>) -> bool {
    table.weight(peers) < table.t
}

/// How many of the peers that are needed are in the set: "2 of 3", or
/// "4 (3 needed)". With weights "weight 4 of 5", or "weight 7 (5 needed)".
pub fn of_threshold(table: &Table, peers: &BTreeSet<usize>) -> String {
    match table.season.has_weights() {
        true => format!("weight {}", reached(table, peers)),
        false => reached(table, peers),
    }
}

/// The same, with the peers: "2 of 3 shares: from 1, 4"; of none "0 of 3 shares".
/// With weights "shares that weigh 4 of 5: from 1"; "no shares, and t is 5".
pub fn told_of_threshold(table: &Table, what: &str, from: &str, peers: &BTreeSet<usize>) -> String {
    let (reached, list) = (reached(table, peers), comma_list(peers));
    match (table.season.has_weights(), peers.is_empty()) {
        (false, true) => format!("{reached} {what}"),
        (false, false) => format!("{reached} {what}: {from}{list}"),
        (true, true) => format!("no {what}, and t is {}", table.t),
        (true, false) => format!("{what} that weigh {reached}: {from}{list}"),
    }
}

/// "2 of 3", or "4 (3 needed)"
fn reached(table: &Table, peers: &BTreeSet<usize>) -> String {
    match (table.weight(peers), table.t) {
        (weight, t) if weight <= t => format!("{weight} of {t}"),
        (weight, t) => format!("{weight} ({t} needed)"),
    }
}
