//! Why a step is refused: the fact behind the number, looked up in the state.
//! Each function gives none where it finds no such fact.

use super::cleared::yet_to_back;
use super::phrases::{count, entry, item, item_list};
use super::short::short;
use super::unknown::unknown;
use crate::names::Bounds;
use crate::steps::{items_of, last_op, op, unused, value, Field, STEP_LENGTH};
use reference::form::{read_step, Step};
use reference::state::{Entry, State, BAG_SIZE};
use reference::table::Table;
use reference::Refusal;

pub type Reason = Option<String>;

/// The fact behind the refusal of these bytes.
pub fn why(table: &Table, state: &State, bytes: &[u8], refusal: Refusal) -> Reason {
    let step = || read_step(bytes).ok();
    match refusal {
        Refusal::Form => form(bytes),
        Refusal::Name => name(table, bytes),
        Refusal::Role => role(table, bytes, step()?),
        Refusal::Down => down(state, bytes, step()?),
        Refusal::Period => period(table, state, step()?),
        Refusal::Unknown => unknown(state, step()?),
        Refusal::Clash => clash(table, state, step()?),
        Refusal::Given => given(state, step()?),
        Refusal::Short => short(table, state, step()?),
        Refusal::Full => full(table, state, step()?),
        // These are of tables and inputs; `input` tells of them.
        Refusal::Header | Refusal::Pairs | Refusal::Item | Refusal::Twin | Refusal::Input => None,
        // These are of a sheet and of what is to be cut down, and no step's.
        Refusal::Sheet | Refusal::Clean => None,
    }
}

/// 5: another length, another op, or fields that the op does not use.
fn form(bytes: &[u8]) -> Reason {
    if bytes.len() != STEP_LENGTH {
        return Some(format!("{}, but a step has {STEP_LENGTH}", count(bytes.len(), "byte")));
    }
    let Some((name, uses)) = op(bytes[0]) else {
        return Some(format!("op {}, but the ops are 1 to {}", bytes[0], last_op()));
    };
    let told = |(field, value): &(&str, u64)| match *field {
        "board" => format!("board has {}", item_list(&items_of(*value).collect::<Vec<_>>())),
        _ => format!("{field} is {value}"),
    };
    let fields: Vec<String> = unused(bytes, uses).iter().map(told).collect();
    let start = format!("op {} ({name}) needs 0 in the fields that it does not use", bytes[0]);
    (!fields.is_empty()).then(|| format!("{start}: {}", fields.join(", ")))
}

/// 6: names that the table does not have.
fn name(table: &Table, bytes: &[u8]) -> Reason {
    let strangers = Bounds::of(table).strangers(bytes);
    (!strangers.is_empty()).then(|| strangers.join("; "))
}

/// The peers that a step needs: whose step it is, and for a fetch the other.
fn doers(bytes: &[u8], step: Step) -> Vec<usize> {
    match step {
        Step::Fetch { peer, other, .. } => vec![peer, other],
        _ => doer(bytes).into_iter().collect(),
    }
}

/// The peer whose step it is: none for a post, a receipt, a publish and a clear.
fn doer(bytes: &[u8]) -> Option<usize> {
    let (_, uses) = op(bytes[0])?;
    uses.contains(&Field::Peer).then(|| value(bytes, Field::Peer) as usize)
}

/// 7: a false step of an honest peer, or another step of a dishonest one.
fn role(table: &Table, bytes: &[u8], step: Step) -> Reason {
    match step {
        Step::FalseSignature { peer, .. }
        | Step::FalseShare { peer, .. }
        | Step::FalseHash { peer, .. }
        | Step::FalseBacking { peer, .. } => {
            let reason = || format!("peer {peer} is honest, but a dishonest peer is needed");
            table.is_honest(peer).then(reason)
        }
        _ => {
            let peer = doers(bytes, step).into_iter().find(|peer| !table.is_honest(*peer))?;
            Some(format!("peer {peer} is dishonest, but an honest peer is needed"))
        }
    }
}

/// 8: the peer, or for a fetch the other; but a down peer may go down or up.
fn down(state: &State, bytes: &[u8], step: Step) -> Reason {
    if matches!(step, Step::Down { .. } | Step::Up { .. }) {
        return None;
    }
    let peer = doers(bytes, step).into_iter().find(|peer| !state.peer(*peer).up)?;
    Some(format!("peer {peer} is down"))
}

/// 9: no open period, one beyond it, one not closed, none to back, or one that is not
/// yet backed by all.
fn period(table: &Table, state: &State, step: Step) -> Reason {
    match step {
        Step::Hand { peer, .. }
        | Step::Sign { peer, .. }
        | Step::Share { peer, .. }
        | Step::Close { peer } => {
            let last = table.periods - 1;
            let reason =
                || format!("peer {peer} has no open period: it has closed its last, period {last}");
            (state.peer(peer).p == table.periods).then(reason)
        }
        Step::Take { peer, period, .. } => {
            let p = state.peer(peer).p;
            let reason =
                || format!("period {period} is beyond period {p}, the open one of peer {peer}");
            (period > p).then(reason)
        }
        Step::Fetch { peer, other, period } => {
            not_closed(state, peer, period).or_else(|| not_closed(state, other, period))
        }
        Step::Hash { peer, period } => not_closed(state, peer, period),
        Step::Hear { peer, entry: number } => {
            let heard = state.bag.get(number)?;
            let Entry::Hash { period, .. } = heard else { return None };
            let reason = not_closed(state, peer, *period)?;
            Some(format!("{reason}; entry {number} is the {}", entry(heard)))
        }
        Step::Back { peer } => none_to_back(table, state, peer),
        Step::Clear { period } => yet_to_back(table, state, period),
        _ => None,
    }
}

fn not_closed(state: &State, peer: usize, period: usize) -> Reason {
    let p = state.peer(peer).p;
    let reason = || format!("peer {peer} has not closed period {period}: its open period is {p}");
    (period >= p).then(reason)
}

/// c = p: what is closed is backed.
fn none_to_back(table: &Table, state: &State, peer: usize) -> Reason {
    let (p, c) = (state.peer(peer).p, state.peer(peer).c);
    let reason = || match p {
        0 => format!("peer {peer} has not closed period 0"),
        _ if p == table.periods => format!("peer {peer} has backed every period"),
        _ => format!("peer {peer} has backed period {}, and has not closed period {p}", p - 1),
    };
    (c == p).then(reason)
}

/// 11: an item that the peer holds, in any period, clashes.
fn clash(table: &Table, state: &State, step: Step) -> Reason {
    let Step::Hand { peer, item: new } = step else { return None };
    let held = state.peer(peer).held.iter().filter(|held| table.clash(new, held.1));
    let clashing: Vec<String> =
        held.map(|(period, other)| format!("{} in period {period}", item(table, *other))).collect();
    let reason = || {
        format!("{} clashes with what peer {peer} holds: {}", item(table, new), clashing.join(", "))
    };
    (!clashing.is_empty()).then(reason)
}

/// 17: the peer's receipt share for the item, of a period before its open one.
fn given(state: &State, step: Step) -> Reason {
    let Step::Share { peer, item } = step else { return None };
    let p = state.peer(peer).p;
    let period = (0..p).find(|period| state.shares.contains(&(peer, *period, item)))?;
    let start = format!("peer {peer} gave its receipt share for item {item} in period {period}");
    Some(format!("{start}; its open period is {p}"))
}

/// 13: the entry that would be new, and no room.
fn full(table: &Table, state: &State, step: Step) -> Reason {
    let new = entered(table, state, step)?;
    let told = entry(&new);
    let reason =
        || format!("the bag is full with {BAG_SIZE} entries, and the {told}, is not among them");
    (state.bag.len() == BAG_SIZE && !state.bag.contains(&new)).then(reason)
}

/// What a step would enter into the bag.
fn entered(table: &Table, state: &State, step: Step) -> Option<Entry> {
    let own = |peer: usize, period: usize| state.peer(peer).board(table, period);
    match step {
        Step::Hash { peer, period } => {
            Some(Entry::Hash { signer: peer, period, board: own(peer, period) })
        }
        Step::Back { peer } => {
            let period = state.peer(peer).c;
            Some(Entry::Backing { signer: peer, period, board: own(peer, period) })
        }
        Step::Publish { entry } => {
            let (period, board) = state.backing(entry)?;
            Some(Entry::Board { period, board })
        }
        Step::FalseHash { peer, period, board } => {
            Some(Entry::Hash { signer: peer, period, board: items_of(board).collect() })
        }
        Step::FalseBacking { peer, period, board } => {
            Some(Entry::Backing { signer: peer, period, board: items_of(board).collect() })
        }
        _ => None,
    }
}
