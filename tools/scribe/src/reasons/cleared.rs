//! A clear: the hashes that it has removed, or the peers that have yet to back.

use super::refusals::Reason;
use reference::state::{Entry, State};
use reference::table::Table;

/// 9: the honest peers whose c is not above the period, each with its c.
pub fn yet_to_back(table: &Table, state: &State, period: usize) -> Reason {
    let waited = table.honest.iter().filter(|j| state.peer(**j).c <= period);
    let told: Vec<String> =
        waited.map(|j| format!("peer {j} (its c is {})", state.peer(*j).c)).collect();
    let reason = || format!("period {period} has yet to be backed by {}", told.join(", "));
    (!told.is_empty()).then(reason)
}

/// The hashes that are gone, by the numbers that they had, and how many entries are left.
pub fn removed(before: &State, after: &State, period: usize) -> String {
    let gone = before.bag.iter().enumerate().filter(|(_, entry)| !after.bag.contains(entry));
    let hashes: Vec<(usize, usize)> = gone.filter_map(numbered_signer).collect();
    if hashes.is_empty() {
        return format!("nothing new: the bag has no hash of period {period}");
    }
    // Numbers that follow one another are told together where they are one signer's.
    let runs = hashes.chunk_by(|(number, signer), next| (number + 1, *signer) == *next);
    let told: Vec<String> = runs.map(told_run).collect();
    format!("hashes of period {period} are removed: {}; {}", told.join(", "), left(after))
}

fn numbered_signer((number, entry): (usize, &Entry)) -> Option<(usize, usize)> {
    match entry {
        Entry::Hash { signer, .. } => Some((number, *signer)),
        _ => None,
    }
}

/// "entry 0 of peer 1", "entries 9 to 255 of peer 4"
fn told_run(run: &[(usize, usize)]) -> String {
    let ((first, signer), (last, _)) = (run[0], run[run.len() - 1]);
    match first == last {
        true => format!("entry {first} of peer {signer}"),
        false => format!("entries {first} to {last} of peer {signer}"),
    }
}

/// How many entries are left, and that they have new numbers.
fn left(after: &State) -> String {
    match after.bag.len() {
        0 => "the bag is empty now".to_string(),
        1 => "1 entry is left, now entry 0".to_string(),
        entries => format!("{entries} entries are left, numbered afresh from 0"),
    }
}
