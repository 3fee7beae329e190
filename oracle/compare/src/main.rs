//! `oracle compare N SEED` and `oracle record SEED`: see README.md.

mod bench;
mod compare;
mod draw;
mod limits;
mod plan;
mod port;
mod random;
mod record;
mod show;
mod shrink;
mod tally;
mod wire;
mod words;

use std::env;
use std::process::ExitCode;

fn main() -> ExitCode {
    let arguments: Vec<String> = env::args().skip(1).collect();
    let parts: Vec<&str> = arguments.iter().map(String::as_str).collect();
    let done = match parts[..] {
        ["compare", count, seed] => number(count).and_then(|count| compare::compare(count, number(seed)?)),
        ["record", seed] => number(seed).and_then(record::record).map(|()| true),
        _ => Err("oracle compare N SEED, or oracle record SEED".into()),
    };
    match done {
        Ok(true) => ExitCode::SUCCESS,
        Ok(false) => ExitCode::FAILURE,
        Err(message) => {
            eprintln!("{message}");
            ExitCode::from(2)
        }
    }
}

fn number(text: &str) -> Result<u64, String> {
    text.parse().map_err(|_| format!("not a number: {text}"))
}
