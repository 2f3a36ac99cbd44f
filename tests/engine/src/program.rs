//! The proved programs, from input to output. `tools/build` leaves them in target/bin.

use std::io::{ErrorKind, Write};
use std::path::{Path, PathBuf};
use std::process::{Command, Stdio};

pub fn program(name: &str) -> PathBuf {
    let path = Path::new(env!("CARGO_MANIFEST_DIR")).join("../../target/bin").join(name);
    assert!(path.exists(), "target/bin/{name} is missing: run `tools/build {name}` first");
    path
}

/// What the program writes, if it ends with 0 and has no errors to tell.
pub fn output(program: &Path, input: &[u8]) -> Vec<u8> {
    let mut command = Command::new(program);
    command.stdin(Stdio::piped()).stdout(Stdio::piped()).stderr(Stdio::piped());
    let mut child = command.spawn().expect("the program runs");
    // It reads all before it writes; of an input that is too long it need not.
    match child.stdin.take().expect("its input").write_all(input) {
        Err(error) if error.kind() != ErrorKind::BrokenPipe => panic!("{error}"),
        _ => {}
    }
    let output = child.wait_with_output().expect("the program ends");
    assert!(output.status.success() && output.stderr.is_empty(), "{output:?}");
    output.stdout
}

/// The refusal that an output says; 0 if it says none.
pub fn refusal(output: &[u8]) -> u8 {
    let text = output.strip_prefix(b"refused ").and_then(|rest| std::str::from_utf8(rest).ok());
    text.map_or(0, |text| text.trim_end().parse().expect("a number"))
}
