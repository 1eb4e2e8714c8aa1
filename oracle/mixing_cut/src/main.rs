//! The oracle: MixingCut's six files, unchanged, behind a program that feeds them.
//!
//! README.md says what each mode reads and prints.

include!(concat!(env!("OUT_DIR"), "/sources.rs"));

mod answer;
mod bench;
mod blocks;
mod draws;
mod job;
mod leaf;
mod leaf_calls;
mod leaf_numbers;
mod lent;
mod limited;
mod pinned;
mod plain;
mod problem;
mod reduced;
mod refusals;
mod run;
mod search;
mod standing;
mod table;
mod trace;
mod words;

use std::io::{Read, Write};
use std::process::ExitCode;

const USAGE: &str = "usage: oracle answer|answers|trace|leaf|run|bench ..|problem ..";

fn main() -> ExitCode {
    let arguments: Vec<String> = std::env::args().skip(1).collect();
    let arguments: Vec<&str> = arguments.iter().map(String::as_str).collect();
    match mode(&arguments) {
        Ok(()) => ExitCode::SUCCESS,
        Err(message) => {
            eprintln!("oracle: {message}");
            ExitCode::FAILURE
        }
    }
}

fn mode(arguments: &[&str]) -> Result<(), String> {
    match arguments {
        ["answer"] => write_bytes(&answer::answer(&read_bytes()?)),
        ["answers"] => each_line(|line| {
            let record = words::unhex(if line == "-" { "" } else { line })?;
            Ok(words::hex(&answer::answer(&record)))
        }),
        ["trace"] => write_bytes(trace::trace(&read_bytes()?).as_bytes()),
        ["leaf"] => each_line(leaf::leaf),
        ["run"] => {
            let mut script = run::Script::new();
            each_line(|line| script.line(line))
        }
        ["bench", what @ ..] => write_bytes(bench::bench(what, read_bytes)?.as_bytes()),
        ["problem", what @ ..] => write_bytes(problem::print(what)?.as_bytes()),
        _ => Err(USAGE.to_string()),
    }
}

fn read_bytes() -> Result<Vec<u8>, String> {
    let mut bytes = Vec::new();
    match std::io::stdin().read_to_end(&mut bytes) {
        Ok(_) => Ok(bytes),
        Err(error) => Err(format!("cannot read standard input: {error}")),
    }
}

fn write_bytes(bytes: &[u8]) -> Result<(), String> {
    let mut out = std::io::stdout().lock();
    out.write_all(bytes)
        .and_then(|()| out.flush())
        .map_err(|error| format!("cannot write standard output: {error}"))
}

/// Prints the answer to each line of standard input; empty lines and comments (#) are passed over.
fn each_line(mut answer: impl FnMut(&str) -> Result<String, String>) -> Result<(), String> {
    let text = String::from_utf8(read_bytes()?).map_err(|error| error.to_string())?;
    for (number, line) in text.lines().enumerate() {
        let line = line.trim();
        if line.is_empty() || line.starts_with('#') {
            continue;
        }
        let answered = answer(line).map_err(|error| format!("line {}: {error}", number + 1))?;
        write_bytes(format!("{answered}\n").as_bytes())?;
    }
    Ok(())
}
