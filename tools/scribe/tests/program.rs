//! The program itself: what it writes where, and its exit status, which is 1
//! for what cannot be read.

use scribe::bytes;
use std::fs;
use std::io::Write;
use std::process::{Command, Output, Stdio};

const HEADER: &str = "peers 1 threshold 1 honest 1 periods 1";

/// The program itself, with this standard input.
fn program(arguments: &[&str], input: &[u8]) -> Output {
    let mut child = Command::new(env!("CARGO_BIN_EXE_scribe"))
        .args(arguments)
        .stdin(Stdio::piped())
        .stdout(Stdio::piped())
        .stderr(Stdio::piped())
        .spawn()
        .unwrap();
    // A program that fails early may not read its input: that is no fault.
    let _ = child.stdin.take().unwrap().write_all(input);
    child.wait_with_output().unwrap()
}

/// What the program writes, and that it does not fail.
fn output(arguments: &[&str], input: &[u8]) -> (String, String) {
    let output = program(arguments, input);
    assert_eq!(output.status.code(), Some(0));
    let [out, errors] = [output.stdout, output.stderr].map(|text| String::from_utf8(text).unwrap());
    (out, errors)
}

#[test]
fn warnings_of_the_program() {
    let text = format!("{HEADER}\naudit 7\nhand 0 0\n");
    let written = program(&["bytes"], text.as_bytes());
    assert_eq!((written.status.code(), written.stdout), (Some(0), bytes(&text).unwrap()));
    let warning = "scribe: warning: line 3: peer 0: the table has peer 1 alone\n";
    assert_eq!(String::from_utf8(written.stderr).unwrap(), warning);
}

/// Text and bytes are told apart, unless a flag says which it is.
#[test]
fn explanations_of_the_program() {
    let text = format!("{HEADER}\naudit 7\npost 0\nhand 0 0\n");
    let refusal = "    6 name: peer 0: the table has peer 1 alone\n";
    let steps = "2 steps: 1 done, 1 refused\n";
    let told = |head: &str| (format!("{head}{refusal}{steps}"), String::new());
    let from_text = told("line 4, step 2: hand 0 0\n");
    assert_eq!(output(&["explain", "--refused"], text.as_bytes()), from_text);
    assert_eq!(output(&["explain", "--text", "--refused"], text.as_bytes()), from_text);
    let from_bytes = told("step 2: hand 0 0\n");
    assert_eq!(output(&["explain", "--refused"], &bytes(&text).unwrap()), from_bytes);
    let last = (format!("line 4, step 2: hand 0 0\n{refusal}"), String::new());
    assert_eq!(output(&["explain", "--last"], text.as_bytes()), last);
    let letters = "table\n    refused 1 header: 112 peers, but a table has 1 to 16; \
        115 periods, but a table has 1 to 8\n";
    let as_bytes = output(&["explain", "--bytes"], text.as_bytes());
    assert_eq!(as_bytes, (letters.to_string(), String::new()));
}

/// The path of a file with these contents.
fn file(name: &str, contents: &[u8]) -> String {
    let path = format!("{}/{name}", env!("CARGO_TARGET_TMPDIR"));
    fs::write(&path, contents).unwrap();
    path
}

/// Three steps, of which the last is refused by 6.
fn three() -> String {
    format!("{HEADER}\naudit 7\npost 0\nhand 1 0\npost 1 # 6\n")
}

#[test]
fn steps_kept_by_the_program() {
    let (numbers, text) = (file("kept.left", b"1\n3\n"), three());
    let kept = |last: &str| {
        let lines = format!("{HEADER}\naudit 7\npost 0  # step 1\n{last}  # step 3\n");
        (lines, String::new())
    };
    assert_eq!(output(&["keep", &numbers], text.as_bytes()), kept("post 1 # 6"));
    assert_eq!(output(&["keep", &numbers, "--text"], text.as_bytes()), kept("post 1 # 6"));
    let input = bytes(&text).unwrap();
    assert_eq!(output(&["keep", &numbers], &input), kept("post 1"));
    assert_eq!(output(&["keep", &numbers, "--bytes"], &input), kept("post 1"));
}

/// What is wrong with the file of numbers has its name before it.
#[test]
fn steps_not_kept_by_the_program() {
    let good = &file("good.left", b"3\n")[..];
    let clean = &file("clean.left", b"refused 18\n")[..];
    let strange = &file("strange.left", b"1\n\xFF\n")[..];
    let absent = &format!("{good}.absent")[..];
    let usage = || "usage: scribe bytes".to_string();
    let failures: [(&[&str], String); 7] = [
        (
            &["keep", clean],
            format!("{clean}: it says \"refused 18\": the last step is not refused"),
        ),
        (&["keep", strange], format!("{strange}: line 2: expected text in UTF-8")),
        (&["keep", absent], format!("{absent}: No such file")),
        (&["keep", good, "--bytes"], "no text for this table: ".to_string()),
        (&["keep"], usage()),
        (&["keep", good, good], usage()),
        (&["keep", good, "--text", "--bytes"], usage()),
    ];
    for (arguments, message) in failures {
        let output = program(arguments, three().as_bytes());
        assert_eq!((output.status.code(), output.stdout), (Some(1), Vec::new()));
        let error = String::from_utf8(output.stderr).unwrap();
        assert!(error.starts_with(&format!("scribe: {message}")), "{error}");
    }
}

#[test]
fn the_program() {
    let good = program(&["bytes"], HEADER.as_bytes());
    assert_eq!((good.status.code(), good.stdout), (Some(0), vec![1, 1, 0, 1, 1, 0]));
    let back = program(&["text"], &[1, 1, 0, 1, 1, 0]);
    assert_eq!((back.status.code(), back.stdout), (Some(0), format!("{HEADER}\n").into_bytes()));
    let sheet = output(&["sheet"], &[1, 1, 0, 6, 0, 5, 0, 0, 0, 7, 2]);
    assert_eq!(sheet, ("period 1\naudit 7\n".to_string(), String::new()));
    let failures: [(&[&str], &[u8], &str); 11] = [
        (&["bytes"], b"peers", "scribe: line 1: expected a number of peers"),
        (&["bytes"], b"peers 1\n\xFF", "scribe: line 2: expected text in UTF-8"),
        (&["text"], b"", "scribe: no text for this table: 0 bytes, but a table has at least 6"),
        (&[], b"", "scribe: usage: scribe bytes"),
        (&["both"], b"", "scribe: usage: scribe bytes"),
        (&["explain", "--all"], b"", "scribe: usage: scribe bytes"),
        (&["explain", "--last", "--refused"], b"", "scribe: usage: scribe bytes"),
        (&["explain"], b"peer 1", "scribe: line 1: expected 'peers N"),
        (&["explain", "--text"], b"\x01\x01", "scribe: line 1: expected 'peers N"),
        (&["sheet"], b"\x08\x00", "scribe: no sheet: period 8, but periods are 0 to 7\n"),
        (&["sheet", "1"], b"\x01\x00", "scribe: usage: scribe bytes"),
    ];
    for (arguments, input, message) in failures {
        let output = program(arguments, input);
        assert_eq!((output.status.code(), output.stdout), (Some(1), Vec::new()));
        let error = String::from_utf8(output.stderr).unwrap();
        assert!(error.starts_with(message), "{error}");
    }
}
