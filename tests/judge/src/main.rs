//! Command line of the tests from outside.

use judge::asks;
use judge::facts::Facts;
use judge::families::Family;
use judge::generate::{records, Mix};
use judge::judge::verdict;
use judge::program::{Failure, Program, Seen};
use judge::random::Random;
use judge::shots::{flip, hexadecimal, lines, split, text, NAMES};
use judge::stream::{Answer, Lent, Model};
use judge::wrong::Wrong;
use std::io::{self, Read, Write};
use std::process::ExitCode;
use std::time::{SystemTime, UNIX_EPOCH};

const USAGE: &str = "usage:
  judge self [--seed N] [--shots N] [--wrong NAME]
  judge program PATH [--seed N] [--shots N] [-- ARGUMENT...]
  judge wrongs [--seed N] [--shots N]
  judge stream --seed N --shots N [--family NAME] [--trouble PERCENT]
  judge shots [--wrong NAME]
  judge eliminate";

const SEEDS: [u64; 8] = [1, 2, 3, 4, 5, 6, 7, 8];

/// The words before `--` by position or option, those after it as they are.
struct Arguments {
    words: Vec<String>,
    after: Vec<String>,
}

impl Arguments {
    fn read() -> Arguments {
        let mut words: Vec<String> = std::env::args().skip(1).collect();
        let end = words.iter().position(|word| word == "--");
        let after = end.map_or(Vec::new(), |at| words.split_off(at).split_off(1));
        Arguments { words, after }
    }

    fn option<T>(&self, name: &str, read: impl Fn(&str) -> Option<T>) -> Result<Option<T>, String> {
        let Some(at) = self.words.iter().position(|word| word == name) else {
            return Ok(None);
        };
        let value = self.words.get(at + 1).and_then(|value| read(value));
        value.map(Some).ok_or(format!("{name} needs a value\n{USAGE}"))
    }

    fn seed(&self) -> Result<Option<u64>, String> {
        self.option("--seed", |value| value.parse().ok())
    }

    fn wrong(&self) -> Result<Wrong, String> {
        Ok(self.option("--wrong", Wrong::named)?.unwrap_or(Wrong::Nothing))
    }

    fn shots(&self, usual: usize) -> Result<usize, String> {
        Ok(self.option("--shots", |value| value.parse().ok())?.unwrap_or(usual))
    }
}

fn main() -> ExitCode {
    let arguments = Arguments::read();
    let command = arguments.words.first().map_or("", String::as_str);
    let done = match command {
        "self" => check_self(&arguments),
        "program" => check_program(&arguments),
        "wrongs" => check_wrongs(&arguments),
        "stream" => write_stream(&arguments),
        "shots" => run_shots(&arguments),
        "eliminate" => eliminate(),
        _ => Err(USAGE.into()),
    };
    match done {
        Ok(true) => ExitCode::SUCCESS,
        Ok(false) => ExitCode::FAILURE,
        Err(message) => {
            eprintln!("{message}");
            ExitCode::from(2)
        }
    }
}

fn new_seed() -> u64 {
    let now = SystemTime::now().duration_since(UNIX_EPOCH);
    now.map_or(0, |time| time.as_nanos() as u64)
}

fn counts((passed, failed): (usize, usize)) -> Result<bool, String> {
    println!("{passed} passed, {failed} failed");
    Ok(failed == 0)
}

fn check_self(arguments: &Arguments) -> Result<bool, String> {
    let seed = arguments.seed()?.unwrap_or_else(new_seed);
    let shots = arguments.shots(10_000)?;
    println!("seed {seed}");
    let mut random = Random::new(seed);
    let mut facts = Facts::new(arguments.wrong()?);
    facts.bench();
    for family in Family::ALL {
        facts.family(family, &mut random, shots.div_ceil(Family::ALL.len()));
    }
    facts.reached();
    counts(facts.print())
}

fn check_program(arguments: &Arguments) -> Result<bool, String> {
    let path = arguments.words.get(1).ok_or(USAGE)?.clone();
    let program = Program { path, args: arguments.after.clone() };
    let shots = arguments.shots(10_000)?;
    let seeds = match arguments.seed()? {
        Some(seed) => vec![seed],
        None => SEEDS.into_iter().chain([new_seed()]).collect(),
    };
    println!("bench shots");
    if !passed(&program, program.bench()) {
        return counts((0, 1));
    }
    for (at, &seed) in seeds.iter().enumerate() {
        println!("seed {seed}");
        if !passed(&program, program.seed(seed, shots)) {
            return counts((1 + at, 1));
        }
    }
    counts((1 + seeds.len(), 0))
}

/// Prints what was seen, or the failure with a shorter stream.
fn passed(program: &Program, outcome: Result<Seen, Failure>) -> bool {
    match outcome {
        Ok(seen) => {
            let seen: Vec<String> = seen.iter().map(|(k, v)| format!("{k}: {v}")).collect();
            println!("  {}", seen.join(", "));
            true
        }
        Err(failure) => {
            show(&program.shrink(failure));
            false
        }
    }
}

fn show(failure: &Failure) {
    println!("expected: {}\nactual:   {}", failure.expected, failure.actual);
    if let Err(reason) = &failure.judged {
        println!("judged:   {reason}");
    }
    println!("stream, its record {}:", failure.record);
    print!("{}", hexadecimal(&failure.records));
}

/// Whether every wrong variant of the model is caught, by the streams of one seed or of those that follow.
fn check_wrongs(arguments: &Arguments) -> Result<bool, String> {
    let path = std::env::current_exe().map_err(|error| error.to_string())?;
    let path = path.to_string_lossy().into_owned();
    let seeds = arguments.seed()?.map_or(SEEDS.to_vec(), |seed| vec![seed]);
    let shots = arguments.shots(10_000)?;
    let mut tally = (0, 0);
    for (name, wrong) in Wrong::ALL {
        let args = ["shots", "--wrong", name].map(String::from).into();
        let program = Program { path: path.clone(), args };
        let caught = |seed: u64| {
            if Wrong::OF_CANDIDATES.contains(wrong) {
                return asks::caught(*wrong, seed, shots);
            }
            let Failure { passed, judged, .. } = program.seed(seed, shots).err()?;
            Some((passed, judged))
        };
        match seeds.iter().find_map(|&seed| Some((seed, caught(seed)?))) {
            None => {
                println!("{name}: MISSED");
                tally.1 += 1;
            }
            Some((seed, (passed, judged))) => {
                let judged = judged.map_or_else(|why| why, |()| "differs only".into());
                println!(
                    "{name}: caught after {passed} shots of seed {seed}, by elimination: {judged}"
                );
                tally.0 += 1;
            }
        }
    }
    counts(tally)
}

fn write_stream(arguments: &Arguments) -> Result<bool, String> {
    let seed = arguments.seed()?.ok_or(USAGE)?;
    let named = |name: &str| Family::ALL.into_iter().find(|family| family.name() == name);
    let family = arguments.option("--family", named)?;
    let trouble = arguments.option("--trouble", |value| value.parse().ok())?.unwrap_or(5);
    let mix = Mix { trouble, wild: false, family };
    let stream = records(&mut Random::new(seed), arguments.shots(1_000)?, mix).concat();
    output(&stream)
}

fn run_shots(arguments: &Arguments) -> Result<bool, String> {
    let wrong = arguments.wrong()?;
    output(text(&lines(&split(&input()?, wrong), wrong)).as_bytes())
}

/// The elimination decoder alone: word, fixed, live and an error that fits.
fn eliminate() -> Result<bool, String> {
    let mut model = Model::new(Wrong::Nothing);
    let mut printed = String::new();
    for record in split(&input()?, Wrong::Nothing) {
        let Answer::Decode(decode) = model.step(&record, Lent::AMPLE) else { continue };
        for (name, half) in NAMES.iter().zip(&decode.halves()) {
            let verdict = verdict(half);
            let line = match &verdict.error {
                None => format!("{name} none {}\n", verdict.fixed.len()),
                Some(error) => {
                    let word = if verdict.classes == 0 { "certain" } else { "unsure" };
                    let (fixed, live) = (verdict.fixed.len(), verdict.classes);
                    format!("{name} {word} {fixed} {live}{}\n", flip(&error.ones()))
                }
            };
            printed.push_str(&line);
        }
    }
    output(printed.as_bytes())
}

fn input() -> Result<Vec<u8>, String> {
    let mut bytes = Vec::new();
    io::stdin().read_to_end(&mut bytes).map_err(|error| error.to_string())?;
    Ok(bytes)
}

fn output(bytes: &[u8]) -> Result<bool, String> {
    io::stdout().write_all(bytes).map_err(|error| error.to_string())?;
    Ok(true)
}
