//! Writes the stored rehearsals and their reports, `stdin` and `stdout`, to the
//! folder given: `cargo run --release --bin stored crates/stored`.

use std::path::Path;
use std::{env, fs};

fn main() {
    let folder = env::args().nth(1).expect("the folder to write to");
    match inputs::stored::files() {
        Ok(files) => {
            fs::write(Path::new(&folder).join("stdin"), files.stdin).expect("stdin is written");
            fs::write(Path::new(&folder).join("stdout"), files.stdout).expect("stdout is written");
        }
        Err(lacking) => panic!("nothing is written, since there is\n{}", lacking.join("\n")),
    }
}
