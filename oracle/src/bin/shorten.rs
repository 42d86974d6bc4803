//! Shows what the published Rust makes of a list in the notation of document 01.

use std::process::ExitCode;

use oracle::{notation, records, run};

/// The most wires and classical bits a list may name.
const LIMIT: usize = 65_536;

const HELP: &str = "usage: shorten FILE
FILE holds gates as in document 01, `h0 s0 cnot(0,1)`; '#' starts a comment.
Prints the list, the list that the published Rust makes of it, and how many gates its walks looked at.";

fn main() -> ExitCode {
    let Some(path) = std::env::args().nth(1) else {
        eprintln!("{HELP}");
        return ExitCode::from(2);
    };
    if path == "--help" {
        println!("{HELP}");
        return ExitCode::SUCCESS;
    }
    match shorten(&path) {
        Ok(text) => {
            println!("{text}");
            ExitCode::SUCCESS
        }
        Err(error) => {
            eprintln!("shorten: {path}: {error}");
            ExitCode::FAILURE
        }
    }
}

fn shorten(path: &str) -> Result<String, String> {
    let text = std::fs::read_to_string(path).map_err(|error| error.to_string())?;
    let gates: Vec<&str> = text
        .lines()
        .map(|line| line.split('#').next().unwrap_or(""))
        .collect();
    let list = notation::parse(&gates.join(" "))?;
    records::check(LIMIT, LIMIT, &list)?;
    let answer = run(LIMIT, LIMIT, &list);
    Ok(format!(
        "before: {} gates\n  {}\nafter: {} gates, {} looked at by commuting walks\n  {}",
        list.len() / records::RECORD,
        notation::show(&list),
        answer.list.len() / records::RECORD,
        answer.walked,
        notation::show(&answer.list),
    ))
}
