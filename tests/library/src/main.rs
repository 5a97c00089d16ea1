//! Command line of the tests of the static library.

use library::{checks, watch};
use std::process::ExitCode;
use std::time::{SystemTime, UNIX_EPOCH};

const USAGE: &str = "usage:
  library [--seed N] [--shots N]
  library only CHECK [--seed N] [--shots N] [--trace]";

const SEEDS: [u64; 2] = [1, 2];
const SHOTS: usize = 2_000;

fn main() -> ExitCode {
    let words: Vec<String> = std::env::args().skip(1).collect();
    let done = match words.first().map(String::as_str) {
        Some("only") => only(&words),
        _ => all(&words),
    };
    match done {
        Ok(true) => ExitCode::SUCCESS,
        Ok(false) => ExitCode::FAILURE,
        Err(message) => {
            eprintln!("{message}");
            ExitCode::from(2)
        }
    }
}

fn option(words: &[String], name: &str) -> Result<Option<u64>, String> {
    let Some(at) = words.iter().position(|word| word == name) else {
        return Ok(None);
    };
    let value = words.get(at + 1).and_then(|value| value.parse().ok());
    value.map(Some).ok_or(format!("{name} needs a number\n{USAGE}"))
}

fn shots(words: &[String]) -> Result<usize, String> {
    Ok(option(words, "--shots")?.map_or(SHOTS, |shots| shots as usize))
}

/// One check in this process.
fn only(words: &[String]) -> Result<bool, String> {
    let named = |(name, ..): &&(&str, _, _)| words.get(1).is_some_and(|word| word == name);
    let (_, check, _) = checks::ALL.iter().find(named).ok_or(USAGE)?;
    let seed = option(words, "--seed")?.unwrap_or(SEEDS[0]);
    if words.iter().any(|word| word == "--trace") {
        watch::trace();
    }
    watch::start();
    let done = check(seed, shots(words)?);
    println!("{}", done.as_ref().unwrap_or_else(|why| why));
    Ok(done.is_ok())
}

/// Every check with every seed.
fn all(words: &[String]) -> Result<bool, String> {
    let shots = shots(words)?;
    let now = SystemTime::now().duration_since(UNIX_EPOCH).map_or(0, |now| now.as_nanos() as u64);
    let seeds = match option(words, "--seed")? {
        Some(seed) => vec![seed],
        None => SEEDS.into_iter().chain([now]).collect(),
    };
    println!("seeds {seeds:?}");
    let mut tally = [0, 0];
    for (name, _, share) in checks::ALL {
        for &seed in &seeds {
            let passed = checks::passed(name, seed, shots * share / 100);
            tally[usize::from(!passed)] += 1;
        }
    }
    println!("{} passed, {} failed", tally[0], tally[1]);
    Ok(tally[1] == 0)
}
