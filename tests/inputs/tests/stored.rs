//! The stored rehearsals are those that the program `stored` writes.

use inputs::stored::files;
use std::fs;
use std::path::Path;

#[test]
fn as_stored() {
    let folder = Path::new(env!("CARGO_MANIFEST_DIR")).join("../../crates/stored");
    let made = files().unwrap_or_else(|lacking| panic!("{}", lacking.join("\n")));
    for (name, bytes) in [("stdin", made.stdin), ("stdout", made.stdout)] {
        let stored = fs::read(folder.join(name)).expect("a stored file");
        assert!(stored == bytes, "{name} differs: write it anew with the program `stored`");
    }
}
