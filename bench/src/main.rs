//! The benchmark: the program `shots` and the library beside an elimination decoder.

mod agree;
mod cells;
mod codes;
mod decoder;
mod eliminate;
mod guesses;
mod lines;
mod matrix;
mod rack;
mod streams;
mod tables;
mod timing;

use agree::Agreement;
use cells::{Bench, Measured, SHOTS};
use judge::half::Asked;
use judge::random::Random;
use std::process::ExitCode;
use timing::Program;

const USAGE: &str = "usage:
  bench/run [--quick] [--seconds S] [--seed N]
  bench/run guesses [--shots N] [--seed N]";

/// Percent of the qubits.
const LOSSES: [usize; 7] = [1, 5, 10, 20, 30, 40, 50];
/// The loss rate and the size at which growth is shown.
const FIXED: (usize, usize) = (10, 288);

struct Options {
    seed: u64,
    seconds: f64,
    rounds: usize,
    /// A cell of the guesses.
    shots: usize,
}

impl Options {
    fn read(mut words: impl Iterator<Item = String>) -> Option<Options> {
        let mut options = Options { seed: 1, seconds: 0.3, rounds: 3, shots: 1_000 };
        while let Some(word) = words.next() {
            match word.as_str() {
                "--quick" => (options.seconds, options.rounds) = (0.05, 2),
                "--seconds" => options.seconds = words.next()?.parse().ok()?,
                "--seed" => options.seed = words.next()?.parse().ok()?,
                "--shots" => options.shots = words.next()?.parse().ok()?,
                _ => return None,
            }
        }
        (options.seconds > 0.0 && options.shots > 0).then_some(options)
    }
}

fn main() -> ExitCode {
    let mut words = std::env::args().skip(1).peekable();
    let command = words.next_if(|word| !word.starts_with("--"));
    let options = |words| Options::read(words).ok_or(String::from(USAGE));
    let done = match command.as_deref() {
        None => options(words).and_then(run),
        Some("guesses") => {
            options(words).map(|options| guesses::print(options.shots, options.seed))
        }
        Some("eliminate") => lines::eliminate(),
        Some(_) => Err(USAGE.into()),
    };
    match done {
        Ok(()) => ExitCode::SUCCESS,
        Err(message) => {
            eprintln!("bench: {message}");
            ExitCode::FAILURE
        }
    }
}

/// From the repository's folder, where `bench/run` starts it.
fn run(options: Options) -> Result<(), String> {
    let this = std::env::current_exe().map_err(|error| error.to_string())?;
    let eliminate = Program { path: this, arguments: vec!["eliminate".into()] };
    let shots = Program { path: "crates/shots/out/shots".into(), arguments: Vec::new() };
    let mut bench = Bench {
        seconds: options.seconds,
        rounds: options.rounds,
        programs: [shots, eliminate],
        folder: "target/bench".into(),
        agreement: Agreement::new(),
    };
    print_facts(&options);
    let codes = measure(&mut bench, &mut Random::new(options.seed))?;
    tables::speeds(&codes);
    tables::words(&codes);
    tables::growth_with_n(&codes, FIXED.0);
    tables::growth_with_loss(&codes, FIXED.1);
    tables::loading(&codes);
    Ok(())
}

fn print_facts(options: &Options) {
    let Options { seed, seconds, rounds, .. } = options;
    let (least, most) = SHOTS;
    let Asked { budget, limit } = Asked::AMPLE;
    let cores = match std::thread::available_parallelism() {
        Ok(cores) if cores.get() == 1 => "all on one core",
        _ => "one thread each, not held to one core",
    };
    println!("seed {seed}, {least} to {most} shots a cell, budget {budget}, turn limit {limit},");
    println!("best of {rounds} rounds of at least {seconds} s, {cores}\n");
}

fn measure(bench: &mut Bench, random: &mut Random) -> Result<Vec<Measured>, String> {
    eprintln!("library and elimination on random codes");
    bench.try_families(random)?;
    let mut measured = Vec::new();
    let codes = codes::measured();
    for (at, code) in codes.iter().enumerate() {
        let mut cells = Vec::new();
        for loss in LOSSES {
            let place = format!("{} qubits, loss {loss} %", code.n);
            let number = at * LOSSES.len() + cells.len() + 1;
            eprintln!("{number} of {}: {place}", codes.len() * LOSSES.len());
            let cell = bench.cell(code, loss, &mut Random::new(random.word()));
            cells.push(cell.map_err(|why| format!("{place}: {why}"))?);
        }
        measured.push(Measured { n: code.n, loading: bench.loading(code)?, cells });
    }
    Ok(measured)
}
