//! The stored messages of some cases, cases/field, fed to the proved box: the answers and
//! what is sent are those stored.

use engine::field::{field_message, field_state_length, field_step};
use reference::table::read_front;
use std::fs;
use std::path::{Path, PathBuf};

/// The folder of the cases.
fn cases() -> PathBuf {
    Path::new(env!("CARGO_MANIFEST_DIR")).join("../../cases")
}

/// The bytes of hexadecimal digits.
fn bytes(digits: &str) -> Vec<u8> {
    let byte = |at: usize| u8::from_str_radix(&digits[at..at + 2], 16).expect("two digits");
    (0..digits.len() / 2).map(|k| byte(2 * k)).collect()
}

/// The table of a case.
fn table(name: &str) -> Vec<u8> {
    let input = fs::read(cases().join(format!("{name}.bin"))).expect("the bytes of the case");
    let end = read_front(&input).expect("a table that is taken").1;
    input[..end].to_vec()
}

/// A line's message, its answer and what is sent, if anything.
fn line(text: &str) -> (Vec<u8>, u8, Option<Vec<u8>>) {
    let words: Vec<&str> = text.split(' ').collect();
    let [_, message, answer, sent] = words[..] else { panic!("no such line: {text}") };
    let sent = (sent != "-").then(|| bytes(sent));
    (bytes(message), answer.parse().expect("an answer"), sent)
}

/// Feeds a box with the lines; how many there were.
fn feed(table: &[u8], peer: u8, lines: &str) -> usize {
    let mut state = vec![0; field_state_length()];
    for text in lines.lines() {
        let (message, answer, sent) = line(text);
        let (before, mut out) = (state.clone(), [0xC3; 13]);
        let (got, due) = if [2, 4, 8, 10].contains(&message[0]) {
            (field_message(table, peer, &mut state, &message), [0xC3; 13])
        } else {
            let due = sent.map(|sent| sent.try_into().expect("13 bytes"));
            let otherwise = if answer == 0 { [0; 13] } else { [0xC3; 13] };
            let got = field_step(table, peer, &mut state, &message, &mut out);
            (got, due.unwrap_or(otherwise))
        };
        assert_eq!((got, out), (answer, due), "{text}");
        assert!(answer == 0 || state == before, "altered: {text}");
    }
    lines.lines().count()
}

#[test]
fn stored_messages() {
    let mut fed: Vec<(String, usize)> = Vec::new();
    for file in fs::read_dir(cases().join("field")).expect("the folder") {
        let path = file.expect("a file").path();
        let name = path.file_stem().and_then(|name| name.to_str()).expect("a name").to_string();
        let (case, peer) = name.rsplit_once('.').expect("a case and a peer");
        let lines = fs::read_to_string(&path).expect("the lines");
        let fed_lines = feed(&table(case), peer.parse().expect("a peer"), &lines);
        fed.push((name, fed_lines));
    }
    fed.sort();
    println!("lines {fed:?}");
    assert!(fed.len() > 8 && fed.iter().all(|(_, lines)| *lines > 5));
}
