//! The rehearsals that are stored, and the reports that the reference gives.

use crate::answers::Answers;
use crate::kinds::{rehearsal, round, KINDS};
use crate::rehearsed::Rehearsed;
use reference::report::rehearse;

const SEED: u64 = 2;

pub struct Files {
    /// The number of rehearsals; then for each its length, and its bytes. Both
    /// numbers have four bytes, high byte first.
    pub stdin: Vec<u8>,
    /// The reports, one after the other.
    pub stdout: Vec<u8>,
}

/// Both files, or what they would lack: kinds of rehearsals, answers of ops.
pub fn files() -> Result<Files, Vec<String>> {
    let inputs: Vec<Vec<u8>> = (0..round()).map(|number| rehearsal(SEED, number).1).collect();
    let lacking = lacking(&inputs);
    if !lacking.is_empty() {
        return Err(lacking);
    }
    let mut stdin = (inputs.len() as u32).to_be_bytes().to_vec();
    for input in &inputs {
        stdin.extend((input.len() as u32).to_be_bytes());
        stdin.extend(input);
    }
    Ok(Files { stdin, stdout: inputs.iter().flat_map(|input| rehearse(input)).collect() })
}

fn lacking(inputs: &[Vec<u8>]) -> Vec<String> {
    let all: Vec<Rehearsed> = inputs.iter().map(|input| Rehearsed::new(input)).collect();
    let mut answers = Answers::default();
    all.iter().for_each(|rehearsed| answers.count_all(rehearsed));
    let missing = KINDS.iter().filter(|kind| !all.iter().any(|one| (kind.fits)(one)));
    missing.map(|kind| format!("no rehearsal: {}", kind.name)).chain(answers.wrong()).collect()
}
