//! Each maker of records, in C, in C++ and in Rust, writes the bytes that the judge writes.

use crate::Checked;
use judge::half::{Asked, Row};
use judge::judge::ensure;
use judge::random::Random;
use judge::records as made;
use judge::stream::{Record, X_ROW, Z_ROW};
use rack::{Refusal, Word};
use std::io::Write;
use std::process::{Command, Stdio};

/// The header's functions as a program, compiled by `run` beside this one.
const PROGRAMS: [&str; 2] = ["header", "header++"];

/// What is asked, what the judge has for it, and what the Rust crate has.
struct Asking {
    line: String,
    expected: String,
    rust: String,
}

pub fn makers(seed: u64, shots: usize) -> Checked {
    let mut random = Random::new(seed);
    let mut askings = names();
    askings.extend((0..10 * shots).map(|_| any(&mut random)));
    for Asking { line, expected, rust } in &askings {
        ensure(expected == rust, || format!("{line}: {rust} from Rust, should be {expected}"))?;
    }
    for program in PROGRAMS {
        let answers = ask(program, &askings)?;
        ensure(answers.lines().count() == askings.len(), || format!("{program}: lines"))?;
        for (answer, Asking { line, expected, .. }) in answers.lines().zip(&askings) {
            let same = answer == expected;
            ensure(same, || format!("{line}: {answer} from {program}, should be {expected}"))?;
        }
    }
    Ok(format!("{} records and names from each", askings.len()))
}

/// A program's answers to all lines.
fn ask(program: &str, askings: &[Asking]) -> Result<String, String> {
    let failed = |error: std::io::Error| format!("{program}: {error}");
    let this = std::env::current_exe().map_err(failed)?;
    let folder = this.parent().and_then(|release| release.parent()).expect("a target folder");
    let mut command = Command::new(folder.join("c").join(program));
    let mut child = command.stdin(Stdio::piped()).stdout(Stdio::piped()).spawn().map_err(failed)?;
    let lines: String = askings.iter().map(|asking| format!("{}\n", asking.line)).collect();
    let mut input = child.stdin.take().expect("a pipe");
    let writer = std::thread::spawn(move || input.write_all(lines.as_bytes()));
    let output = child.wait_with_output().map_err(failed)?;
    writer.join().expect("a writer").map_err(failed)?;
    ensure(output.status.success(), || format!("{program} ended with {}", output.status))?;
    String::from_utf8(output.stdout).map_err(|error| error.to_string())
}

/// Words and refusals by their numbers; others have no name.
fn names() -> Vec<Asking> {
    let asking = |kind: &str, number: u16, expected: &str, rust: Option<&str>| {
        let rust = rust.unwrap_or(expected).into();
        Asking { line: format!("{kind} {number}"), expected: expected.into(), rust }
    };
    let words = ["no word", "certain", "unsure", "none", "spent", "stopped", "no word"];
    let refusals = [
        "no refusal",
        "unknown",
        "length",
        "size",
        "place",
        "row",
        "clash",
        "codeless",
        "range",
        "twice",
        "no refusal",
        "spoiled",
        "short",
        "no refusal",
        "no refusal",
        "unfinished",
        "many",
        "encoded",
        "no refusal",
    ];
    let words = (0..).zip(words).map(|(number, expected)| {
        asking("word", number, expected, Word::try_from(number).ok().map(Word::name))
    });
    let refusals = (0..).zip(refusals).map(|(number, expected)| {
        asking("refusal", number, expected, Refusal::try_from(number).ok().map(Refusal::name))
    });
    words.chain(refusals).collect()
}

/// A record of any kind with any numbers.
fn any(random: &mut Random) -> Asking {
    let [a, b, c] = [(); 3].map(|()| any_number(random));
    let number = |number: usize| number.min(65_535);
    let row: Vec<u16> = (0..random.below(40)).map(|_| any_number(random) as u16).collect();
    let qubits: Row = row.iter().map(|&qubit| qubit.into()).collect();
    match random.below(10) {
        0 => asked("sizes", &[a, b, c], made::sizes(number(a), number(b), number(c)), {
            rack::Record::sizes(a, b, c)
        }),
        1 => asked("x_row", &qubits, judged_row(X_ROW, &qubits), rack::Record::x_row(&row)),
        2 => asked("z_row", &qubits, judged_row(Z_ROW, &qubits), rack::Record::z_row(&row)),
        3 => asked("lost", &[a], made::number(2, number(a)), rack::Record::lost(a)),
        4 => asked("lit_z", &[a], made::number(3, number(a)), rack::Record::lit_z(a)),
        5 => asked("lit_x", &[a], made::number(4, number(a)), rack::Record::lit_x(a)),
        6 => asked("unread_z", &[a], made::number(6, number(a)), rack::Record::unread_z(a)),
        7 => asked("unread_x", &[a], made::number(7, number(a)), rack::Record::unread_x(a)),
        8 => asked("logical", &[a], made::logical(number(a)), rack::Record::logical(a)),
        _ => {
            let expected = Asked { budget: a.min(255), limit: number(b) };
            asked("decode", &[a, b], made::decode(expected), rack::Record::decode(a, b))
        }
    }
}

/// Within the ranges of document 01, around two bytes' end, or anything.
fn any_number(random: &mut Random) -> usize {
    let [any, wide] = [random.below(1_100), random.word() as usize];
    let edge = random.pick(&[0, 1, 63, 64, 255, 256, 1_024, 65_534, 65_535, 65_536, 65_537]);
    random.pick(&[any, any, any, edge, wide])
}

/// A row of no qubits or more than 16 has no bytes but a kind that is not listed.
fn judged_row(kind: u8, qubits: &Row) -> Record {
    match qubits.len() {
        1..=16 => made::row(kind, qubits),
        _ => vec![kind],
    }
}

fn asked(maker: &str, numbers: &[usize], expected: Record, rust: rack::Record) -> Asking {
    let hexadecimal =
        |bytes: &[u8]| bytes.iter().map(|byte| format!("{byte:02x}")).collect::<String>();
    let numbers: String = numbers.iter().map(|number| format!(" {number}")).collect();
    let (expected, rust) = (hexadecimal(&expected), hexadecimal(rust.bytes()));
    Asking { line: format!("{maker}{numbers}"), expected, rust }
}
