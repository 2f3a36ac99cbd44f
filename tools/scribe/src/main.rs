//! `scribe bytes`, `scribe text`, `scribe explain`, `scribe keep` and `scribe
//! sheet`, from standard input to standard output.

use scribe::explain::{explain_bytes, explain_text, is_text, Which};
use scribe::keep::Lines;
use std::fs;
use std::io::{self, Read, Write};
use std::process::ExitCode;

const USAGE: &str = "usage: scribe bytes < case.txt > case.bin, \
    scribe text < case.bin > case.txt, \
    scribe explain [--last | --refused] [--text | --bytes] < case, \
    scribe keep NUMBERS [--text | --bytes] < case, \
    or scribe sheet < board.sheet";

fn main() -> ExitCode {
    match run() {
        Ok(output) => match io::stdout().write_all(&output) {
            Ok(()) => ExitCode::SUCCESS,
            Err(error) => fail(&error.to_string()),
        },
        Err(message) => fail(&message),
    }
}

fn run() -> Result<Vec<u8>, String> {
    let arguments: Vec<String> = std::env::args().skip(1).collect();
    let arguments: Vec<&str> = arguments.iter().map(String::as_str).collect();
    match arguments[..] {
        ["bytes"] => bytes(),
        ["text"] => Ok(scribe::text(&input()?)?.into_bytes()),
        ["explain", ref flags @ ..] => explain(flags),
        ["keep", numbers, ref flags @ ..] => keep(numbers, flags),
        ["sheet"] => Ok(scribe::sheet(&input()?)?.into_bytes()),
        _ => Err(USAGE.to_string()),
    }
}

/// Text to bytes, with the warnings on standard error.
fn bytes() -> Result<Vec<u8>, String> {
    let written = scribe::read(&utf8(input()?)?)?;
    for warning in &written.warnings {
        eprintln!("scribe: warning: {warning}");
    }
    Ok(written.bytes)
}

fn explain(flags: &[&str]) -> Result<Vec<u8>, String> {
    let (mut which, mut text) = (Which::All, None);
    for flag in flags {
        match *flag {
            "--last" if which == Which::All => which = Which::Last,
            "--refused" if which == Which::All => which = Which::Refused,
            "--text" if text.is_none() => text = Some(true),
            "--bytes" if text.is_none() => text = Some(false),
            _ => return Err(USAGE.to_string()),
        }
    }
    let input = input()?;
    let told = match text.unwrap_or(is_text(&input)) {
        true => explain_text(&utf8(input)?, which)?,
        false => explain_bytes(&input, which),
    };
    Ok(told.into_bytes())
}

/// The steps whose numbers stand in a file. Errors of that file name it.
fn keep(file: &str, flags: &[&str]) -> Result<Vec<u8>, String> {
    let text = match flags {
        [] => None,
        ["--text"] => Some(true),
        ["--bytes"] => Some(false),
        _ => return Err(USAGE.to_string()),
    };
    let of_file = |error: String| format!("{file}: {error}");
    let numbers = fs::read(file).map_err(|error| of_file(error.to_string()))?;
    let numbers = utf8(numbers).map_err(of_file)?;
    let input = input()?;
    let lines = match text.unwrap_or(is_text(&input)) {
        true => Lines::of_text(&utf8(input)?)?,
        false => Lines::of_bytes(&input)?,
    };
    Ok(lines.keep(&numbers).map_err(of_file)?.into_bytes())
}

fn input() -> Result<Vec<u8>, String> {
    let mut bytes = Vec::new();
    io::stdin().read_to_end(&mut bytes).map_err(|error| error.to_string())?;
    Ok(bytes)
}

fn utf8(bytes: Vec<u8>) -> Result<String, String> {
    String::from_utf8(bytes).map_err(|error| {
        let good = &error.as_bytes()[..error.utf8_error().valid_up_to()];
        let line = 1 + good.iter().filter(|byte| **byte == b'\n').count();
        format!("line {line}: expected text in UTF-8")
    })
}

fn fail(message: &str) -> ExitCode {
    eprintln!("scribe: {message}");
    ExitCode::FAILURE
}
