//! Reads a rehearsal from standard input and writes its report to standard
//! output; `reference sheet` reads a period's byte before it and writes that
//! period's sheet; `reference shrink` writes the numbers of the steps that are left
//! of it once it is cut down; `reference gain` reads a step file and writes the most
//! that the bag can gain by it; `reference field PEER` writes what the rehearsal passes to
//! that peer's box, with the box's answers and what it sends.

use std::env;
use std::io::{self, Read, Write};

fn main() -> io::Result<()> {
    let args: Vec<String> = env::args().skip(1).collect();
    let args: Vec<&str> = args.iter().map(String::as_str).collect();
    let mut input = Vec::new();
    io::stdin().read_to_end(&mut input)?;
    let output = match args[..] {
        [] => reference::report::rehearse(&input),
        ["sheet"] => reference::sheet::rehearsed_sheet(&input),
        ["shrink"] => reference::shrink::shrink(&input),
        ["gain"] => reference::gain::gain_line(&input),
        ["field", peer] => {
            reference::field::lines::field_lines(peer.parse().expect("a peer's number"), &input)
        }
        _ => panic!("no arguments, `sheet`, `shrink`, `gain`, or `field PEER`"),
    };
    io::stdout().write_all(&output)
}
