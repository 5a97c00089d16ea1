//! The checks by name. Each runs in a process of its own, so that its death is a failure too.

use crate::watch::CASE;
use crate::{
    agrees, altered, bench, candidates, garbage, large, larger, logical, makers, numbers, owned,
    short, window, Checked,
};
use std::process::{Command, Output};

/// Runs with a seed and a number of shots.
type Check = fn(u64, usize) -> Checked;

/// Each check with its share of the shots, in percent.
pub const ALL: [(&str, Check, usize); 16] = [
    ("numbers", numbers::numbers, 100),
    ("makers", makers::makers, 100),
    ("owned", owned::owned, 100),
    ("bench", bench::bench, 100),
    ("agrees", agrees::agrees, 150),
    ("words", agrees::words, 10),
    ("large", large::large, 100),
    ("logical", logical::logical, 100),
    ("candidates", candidates::candidates, 100),
    ("window", window::window, 100),
    ("longer", agrees::longer, 30),
    ("one-short", short::one_short, 100),
    ("any-short", short::any_short, 50),
    ("garbage", garbage::garbage, 80),
    ("larger", larger::larger, 200),
    ("altered", altered::altered, 200),
];

/// Runs a check in a child and prints what came of it; whether it passed. A failed check runs again
/// with a trace, which ends with the call that failed.
pub fn passed(name: &str, seed: u64, shots: usize) -> bool {
    let run = |trace: &[&str]| child(name, seed, shots, trace);
    let output = run(&[]);
    let said = String::from_utf8_lossy(&output.stdout).trim_end().to_string();
    if output.status.success() {
        println!("ok {name}, seed {seed}: {said}");
        return true;
    }
    println!("FAILED {name}, seed {seed}, shots {shots}: {said} ({})", output.status);
    println!("stream, the last record failed:");
    let trace = String::from_utf8_lossy(&run(&["--trace"]).stderr).into_owned();
    let last = trace.rsplit(&format!("{CASE}\n")).next().unwrap_or_default();
    println!("{last}");
    false
}

fn child(name: &str, seed: u64, shots: usize, trace: &[&str]) -> Output {
    let program = std::env::current_exe().expect("a path of this program");
    let numbers = [seed.to_string(), shots.to_string()];
    Command::new(program)
        .args(["only", name, "--seed", &numbers[0], "--shots", &numbers[1]])
        .args(trace)
        .output()
        .expect("a child of this program")
}
