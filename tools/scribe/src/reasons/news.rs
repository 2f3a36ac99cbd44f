//! What a step has changed: the state before it beside the state after it. No step
//! that is told here takes an entry away, so entries keep their numbers; `cleared`
//! tells of those that do.

use super::phrases::{comma_list, entry};
use super::quorum::{of_threshold, told_of_threshold};
use reference::state::{Peer, State};
use reference::table::Table;
use std::collections::BTreeSet;

type Triple = (usize, usize, usize);

/// All that is new, or "nothing new".
pub fn news(table: &Table, before: &State, after: &State) -> String {
    let mut news = outside(table, before, after);
    for j in 1..=table.n {
        let (old, new) = (before.peer(j), after.peer(j));
        if old == new {
            continue;
        }
        news.extend(sets(after, j, old, new));
        news.extend(database(table, j, old, new));
        news.extend(counters(table, j, old, new));
    }
    match news.is_empty() {
        true => "nothing new".to_string(),
        false => news.join("; "),
    }
}

/// Posts, signatures, shares, receipts and entries.
fn outside(table: &Table, before: &State, after: &State) -> Vec<String> {
    let mut news = Vec::new();
    for item in after.posted.difference(&before.posted) {
        news.push(format!("item {item} is posted"));
    }
    for (peer, period, item) in after.signatures.difference(&before.signatures) {
        news.push(format!("signature of peer {peer} on item {item} in period {period}"));
    }
    for share in after.shares.difference(&before.shares) {
        news.push(share_of(table, after, *share));
    }
    for (period, item) in after.receipts.difference(&before.receipts) {
        news.push(format!("receipt for item {item} in period {period}"));
    }
    for number in before.bag.len()..after.bag.len() {
        news.push(format!("{}: entry {number}", entry(&after.bag[number])));
    }
    news
}

/// A new receipt share, and how many there are with it.
fn share_of(table: &Table, after: &State, (peer, period, item): Triple) -> String {
    let there = after.shares.iter().filter(|(_, q, i)| (*q, *i) == (period, item));
    let sharers: BTreeSet<usize> = there.map(|share| share.0).collect();
    let count = of_threshold(table, &sharers);
    format!("receipt share of peer {peer} on item {item} in period {period}, {count}")
}

/// Items held and hashes heard.
fn sets(after: &State, j: usize, old: &Peer, new: &Peer) -> Vec<String> {
    let held = new.held.difference(&old.held);
    let heard = new.heard.difference(&old.heard);
    let told = |number: usize| format!("entry {number}, the {}", entry(&after.bag[number]));
    held.map(|(period, item)| format!("peer {j} holds item {item} in period {period}"))
        .chain(heard.map(|number| format!("peer {j} has heard {}", told(*number))))
        .collect()
}

/// The signers in the database, where there are new ones.
fn database(table: &Table, j: usize, old: &Peer, new: &Peer) -> Vec<String> {
    let none = BTreeSet::new();
    let mut news = Vec::new();
    for (key, signers) in &new.database {
        let known = old.database.get(key).unwrap_or(&none);
        if signers != known {
            let what = format!("signers on item {} in period {}", key.1, key.0);
            let told = told_of_threshold(table, &what, "", signers);
            let new = comma_list(signers.difference(known));
            news.push(format!("peer {j} has {told} (new {new})"));
        }
    }
    news
}

/// Up or down, p and c.
fn counters(table: &Table, j: usize, old: &Peer, new: &Peer) -> Vec<String> {
    let mut news = Vec::new();
    if new.up != old.up {
        news.push(format!("peer {j} is {}", if new.up { "up" } else { "down" }));
    }
    if new.p != old.p {
        let next = match new.p == table.periods {
            true => "the last".to_string(),
            false => format!("and period {} is open", new.p),
        };
        news.push(format!("peer {j} has closed period {}, {next}", old.p));
    }
    if new.c != old.c {
        news.push(format!("peer {j} has backed period {}", old.c));
    }
    news
}
