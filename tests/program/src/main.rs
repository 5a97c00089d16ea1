//! Command line of the tests of how the program reads and writes.

mod cases;
mod child;
mod random;
mod setup;
mod stream;
mod told;
mod truth;

use setup::Setup;
use std::process::ExitCode;

const USAGE: &str = "usage: program SHOTS SHIM [CASE]";

fn main() -> ExitCode {
    let words: Vec<String> = std::env::args().skip(1).collect();
    let (Some(shots), Some(shim)) = (words.first(), words.get(1)) else {
        eprintln!("{USAGE}");
        return ExitCode::from(2);
    };
    let mut tally = [0, 0];
    match Setup::new(shots, shim) {
        Ok(setup) => all(&setup, words.get(2), &mut tally),
        Err(why) => {
            println!("FAILED when nothing fails: {why}");
            tally[1] += 1;
        }
    }
    println!("{} passed, {} failed", tally[0], tally[1]);
    if tally[1] == 0 {
        ExitCode::SUCCESS
    } else {
        ExitCode::FAILURE
    }
}

/// Every case, or those whose name begins as said.
fn all(setup: &Setup, only: Option<&String>, tally: &mut [usize; 2]) {
    for (name, case) in cases::ALL.into_iter().chain(told::ALL) {
        if only.is_some_and(|only| !name.starts_with(only)) {
            continue;
        }
        let done = case(setup);
        tally[usize::from(done.is_err())] += 1;
        match done {
            Ok(()) => println!("ok {name}"),
            Err(why) => println!("FAILED {name}: {why}"),
        }
    }
}
