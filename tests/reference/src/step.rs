//! The steps: for each op its refusals in the order in which they are
//! judged, then its effect. A refusal leaves by `?` before anything changes.
//! An effect that is there already changes nothing, since all of them join
//! sets; the bag sees to that itself.

use crate::false_steps::*;
use crate::form::{read_step, Step};
use crate::refusals::*;
use crate::state::{Entry, State};
use crate::table::Table;
use crate::Refusal;
use std::collections::BTreeSet;

/// A step call with any bytes: its answer. A refused call alters nothing.
pub fn step(table: &Table, state: &mut State, bytes: &[u8]) -> u8 {
    match call(table, state, bytes) {
        Ok(()) => 0,
        Err(refusal) => refusal.number(),
    }
}

/// The same, with the refusal by its name.
pub fn call(table: &Table, state: &mut State, bytes: &[u8]) -> Result<(), Refusal> {
    run(table, state, read_step(bytes)?)
}

fn run(table: &Table, state: &mut State, step: Step) -> Done {
    match step {
        Step::Post { item } => post(table, state, item),
        Step::Hand { peer, item } => hand(table, state, peer, item),
        Step::Sign { peer, item } => sign(table, state, peer, item),
        Step::Take { peer, other, period, item } => take(table, state, peer, other, period, item),
        Step::Share { peer, item } => share(table, state, peer, item),
        Step::Receipt { period, item } => receipt(table, state, period, item),
        Step::Close { peer } => close(table, state, peer),
        Step::Fetch { peer, other, period } => fetch(table, state, peer, other, period),
        Step::Hash { peer, period } => hash(table, state, peer, period),
        Step::Hear { peer, entry } => hear(table, state, peer, entry),
        Step::Back { peer } => back(table, state, peer),
        Step::Publish { entry } => publish(table, state, entry),
        Step::FalseSignature { peer, period, item } => {
            false_signature(table, state, (peer, period, item))
        }
        Step::FalseShare { peer, period, item } => false_share(table, state, (peer, period, item)),
        Step::FalseHash { peer, period, board } => false_hash(table, state, peer, period, board),
        Step::FalseBacking { peer, period, board } => {
            false_backing(table, state, peer, period, board)
        }
        Step::Down { peer } => down(table, state, peer),
        Step::Up { peer } => up(table, state, peer),
        Step::Clear { period } => clear(table, state, period),
    }
}

// The ops, in document 01's order, and 19 of document 02's P11; 13 to 16 are in
// `false_steps`.

/// 1 post.
fn post(table: &Table, state: &mut State, item: usize) -> Done {
    name_item(table, item)?;
    state.posted.insert(item);
    Ok(())
}

/// 2 hand: j holds a posted item in p. 11: j holds, in any period, an item
/// that clashes.
fn hand(table: &Table, state: &mut State, j: usize, item: usize) -> Done {
    name_peer(table, j)?;
    name_item(table, item)?;
    need_honest(table, j)?;
    need_up(state, j)?;
    let p = need_open(table, state, j)?;
    need_posted(state, item)?;
    let clashes = state.peer(j).held.iter().any(|(_, other)| table.clash(item, *other));
    refuse_if(clashes, Refusal::Clash)?;
    state.peer_mut(j).held.insert((p, item));
    Ok(())
}

/// 3 sign: j's signature on an item held in p goes outside and into j's
/// database.
fn sign(table: &Table, state: &mut State, j: usize, item: usize) -> Done {
    name_peer(table, j)?;
    name_item(table, item)?;
    need_honest(table, j)?;
    need_up(state, j)?;
    let p = need_open(table, state, j)?;
    refuse_if(!state.peer(j).held.contains(&(p, item)), Refusal::Unknown)?;
    state.signatures.insert((j, p, item));
    state.peer_mut(j).record(j, p, item);
    Ok(())
}

/// 4 take: an outside signature of `other` enters j's database, for the open
/// period or a closed one.
fn take(
    table: &Table,
    state: &mut State,
    j: usize,
    other: usize,
    period: usize,
    item: usize,
) -> Done {
    name_peer(table, j)?;
    name_peer(table, other)?;
    name_period(table, period)?;
    name_item(table, item)?;
    need_honest(table, j)?;
    need_up(state, j)?;
    refuse_if(period > state.peer(j).p, Refusal::Period)?;
    refuse_if(!state.signatures.contains(&(other, period, item)), Refusal::Unknown)?;
    state.peer_mut(j).record(other, period, item);
    Ok(())
}

/// 5 share: j holds t signers, by weight, on the item in p; its receipt share goes
/// outside. Only for the open period. 17: j gave one for the item in an earlier
/// period.
fn share(table: &Table, state: &mut State, j: usize, item: usize) -> Done {
    name_peer(table, j)?;
    name_item(table, item)?;
    need_honest(table, j)?;
    need_up(state, j)?;
    let p = need_open(table, state, j)?;
    let given = state.shares.iter().any(|(k, q, i)| *k == j && *q < p && *i == item);
    refuse_if(given, Refusal::Given)?;
    need_quorum(table, &state.peer(j).signers(p, item))?;
    state.shares.insert((j, p, item));
    Ok(())
}

/// 6 receipt: t sharers, by weight.
fn receipt(table: &Table, state: &mut State, period: usize, item: usize) -> Done {
    name_period(table, period)?;
    name_item(table, item)?;
    need_quorum(table, &state.sharers(period, item))?;
    state.receipts.insert((period, item));
    Ok(())
}

/// 7 close: p rises by one.
fn close(table: &Table, state: &mut State, j: usize) -> Done {
    name_peer(table, j)?;
    need_honest(table, j)?;
    need_up(state, j)?;
    need_open(table, state, j)?;
    state.peer_mut(j).p += 1;
    Ok(())
}

/// 8 fetch: j adds the other's database of a period that both have closed.
fn fetch(table: &Table, state: &mut State, j: usize, other: usize, period: usize) -> Done {
    name_peer(table, j)?;
    name_peer(table, other)?;
    name_period(table, period)?;
    need_honest(table, j)?;
    need_honest(table, other)?;
    need_up(state, j)?;
    need_up(state, other)?;
    need_closed(state, j, period)?;
    need_closed(state, other, period)?;
    let database = state.peer(other).database.clone();
    for ((q, item), signers) in database {
        if q == period {
            for signer in signers {
                state.peer_mut(j).record(signer, period, item);
            }
        }
    }
    Ok(())
}

/// 9 hash: j's board of that closed period enters the bag as a hash.
fn hash(table: &Table, state: &mut State, j: usize, period: usize) -> Done {
    name_peer(table, j)?;
    name_period(table, period)?;
    need_honest(table, j)?;
    need_up(state, j)?;
    need_closed(state, j, period)?;
    let board = state.peer(j).board(table, period);
    state.enter(Entry::Hash { signer: j, period, board })
}

/// 10 hear: j notes a hash entry of a closed period. This op judges 10
/// before 9.
fn hear(table: &Table, state: &mut State, j: usize, entry: usize) -> Done {
    name_peer(table, j)?;
    need_honest(table, j)?;
    need_up(state, j)?;
    let Some(Entry::Hash { period, .. }) = state.bag.get(entry) else {
        return Err(Refusal::Unknown);
    };
    need_closed(state, j, *period)?;
    state.peer_mut(j).heard.insert(entry);
    Ok(())
}

/// 11 back: t different signers among the heard hashes have j's board of
/// period c; that backing enters the bag, c rises by one.
fn back(table: &Table, state: &mut State, j: usize) -> Done {
    name_peer(table, j)?;
    need_honest(table, j)?;
    need_up(state, j)?;
    let peer = state.peer(j);
    let period = peer.c;
    refuse_if(period == peer.p, Refusal::Period)?;
    let board = peer.board(table, period);
    let mut signers = BTreeSet::new();
    for entry in &peer.heard {
        if let Entry::Hash { signer, period: q, board: b } = &state.bag[*entry] {
            if *q == period && *b == board {
                signers.insert(*signer);
            }
        }
    }
    need_quorum(table, &signers)?;
    state.enter(Entry::Backing { signer: j, period, board })?;
    state.peer_mut(j).c += 1;
    Ok(())
}

/// 12 publish: t different signers back the same period and board as this
/// backing; the board enters the bag.
fn publish(table: &Table, state: &mut State, entry: usize) -> Done {
    let Some((period, board)) = state.backing(entry) else {
        return Err(Refusal::Unknown);
    };
    let mut signers = BTreeSet::new();
    for other in &state.bag {
        if let Entry::Backing { signer, period: q, board: b } = other {
            if *q == period && *b == board {
                signers.insert(*signer);
            }
        }
    }
    need_quorum(table, &signers)?;
    state.enter(Entry::Board { period, board })
}

/// 17 down.
fn down(table: &Table, state: &mut State, j: usize) -> Done {
    name_peer(table, j)?;
    need_honest(table, j)?;
    state.peer_mut(j).up = false;
    Ok(())
}

/// 18 up. The peer kept its state.
fn up(table: &Table, state: &mut State, j: usize) -> Done {
    name_peer(table, j)?;
    need_honest(table, j)?;
    state.peer_mut(j).up = true;
    Ok(())
}

/// 19 clear: the hash entries of a period that every honest peer has backed leave
/// the bag. 9: an honest peer's c is not above the period, whatever the bag has.
fn clear(table: &Table, state: &mut State, period: usize) -> Done {
    name_period(table, period)?;
    let all_backed = table.honest.iter().all(|j| state.peer(*j).c > period);
    refuse_if(!all_backed, Refusal::Period)?;
    state.remove_hashes(period);
    Ok(())
}
