//! The cases of what standard error is told, and of the arguments: exact texts.

use crate::child::{no_wait_pipe, said, start};
use crate::setup::Setup;
use std::fs::File;
use std::io::{Read, Write};
use std::process::{Command, Stdio};
use std::thread::{sleep, spawn};
use std::time::Duration;

type Checked = Result<(), String>;
type Case = fn(&Setup) -> Checked;

pub const ALL: [(&str, Case); 14] = [
    ("told of an empty input", empty),
    ("told of a directory", directory),
    ("told of a code one row short", short_code),
    ("told of text instead of records", text),
    ("told of a clean run", clean),
    ("told of a shot left open", open_shot),
    ("told of logical qubits that agree", agreeing),
    ("told of logical qubits that differ", differing),
    ("told of a run of equal refusals", equal_refusals),
    ("told of each refusal", each_refusal),
    ("an input that does not wait", does_not_wait),
    ("the argument --help", help),
    ("the argument --version", version),
    ("another argument", another_argument),
];

/// Sizes 4 1 1, X row 0 1 2 3, Z row 0 1 2 3: the code four.
const SIZES: &[u8] = &[1, 4, 0, 1, 0, 1, 0];
const X_ROW: &[u8] = &[36, 0, 0, 1, 0, 2, 0, 3, 0];
const Z_ROW: &[u8] = &[68, 0, 0, 1, 0, 2, 0, 3, 0];
const DECODE: &[u8] = &[5, 1, 100, 0];
/// The code four encodes 2 qubits.
const LOGICAL: &[u8] = &[8, 2, 0];
const OTHER: &[u8] = &[8, 13, 0];

fn lost(qubit: u8) -> Vec<u8> {
    vec![2, qubit, 0]
}

fn four() -> Vec<u8> {
    [SIZES, X_ROW, Z_ROW].concat()
}

fn same(what: &str, actual: &str, expected: &str) -> Checked {
    match actual == expected {
        true => Ok(()),
        false => Err(format!("{what}: {actual:?} instead of {expected:?}")),
    }
}

fn words(error: std::io::Error) -> String {
    error.to_string()
}

/// What the program writes and says.
fn run(mut command: Command, input: Stdio) -> Result<(String, String), String> {
    let mut child = start(command.stdin(input).stdout(Stdio::piped()))?;
    let mut from = child.stdout.take().ok_or("no standard output")?;
    let reader = spawn(move || {
        let mut lines = String::new();
        from.read_to_string(&mut lines).map(|_| lines)
    });
    let told = said(child)?;
    let lines = reader.join().map_err(|_| "the reader failed")?.map_err(words)?;
    Ok((lines, told))
}

/// Runs on these bytes and compares both.
fn told(setup: &Setup, input: &[u8], lines: &str, told: &str) -> Checked {
    let path = setup.output();
    std::fs::write(&path, input).map_err(words)?;
    let file = File::open(&path).map_err(words)?;
    let actual = run(setup.command(), file.into())?;
    same("standard output", &actual.0, lines)?;
    same("standard error", &actual.1, told)
}

fn empty(setup: &Setup) -> Checked {
    told(setup, &[], "", "shots: 0 bytes, 0 records, 0 codes, 0 decodes, 0 refusals\n")
}

fn directory(setup: &Setup) -> Checked {
    let actual = run(setup.command(), File::open("/").map_err(words)?.into())?;
    same("standard output", &actual.0, "")?;
    let expected = "shots: 0 bytes, 0 records, 0 codes, 0 decodes, 0 refusals\nshots: reading failed with error 21\n";
    same("standard error", &actual.1, expected)
}

fn short_code(setup: &Setup) -> Checked {
    let expected = "shots: 16 bytes, 2 records, 0 codes, 0 decodes, 0 refusals\nshots: code incomplete: 1 of 2 rows\n";
    told(setup, &[SIZES, X_ROW].concat(), "", expected)
}

fn text(setup: &Setup) -> Checked {
    let expected = "shots: record 1 at byte 0, kind 104: refused 1 unknown: kinds 1 to 8, 33 to 48 and 65 to 80 wanted\n\
        shots: 1 byte, 1 record, 0 codes, 0 decodes, 1 refusal\n";
    told(setup, b"hello\n", "refused 1 104\n", expected)
}

fn clean(setup: &Setup) -> Checked {
    let lines = "code 4 1 1\nX unsure 0 2 1 1 flip 1\nZ unsure 0 2 1 1 flip\n";
    for budget in [1, 63, 64, 255] {
        let decode = vec![5, budget, 100, 0];
        let input = [four(), lost(0), lost(1), vec![3, 0, 0], decode].concat();
        told(setup, &input, lines, "shots: 38 bytes, 7 records, 1 code, 1 decode, 0 refusals\n")?;
    }
    let input = [four(), lost(2), vec![6, 0, 0], DECODE.to_vec()].concat();
    let lines = "code 4 1 1\nX unsure 0 1 1 1 flip\nZ certain 0 1 0 0 flip\n";
    told(setup, &input, lines, "shots: 35 bytes, 6 records, 1 code, 1 decode, 0 refusals\n")
}

fn open_shot(setup: &Setup) -> Checked {
    let left = "shots: shot left open, not decoded\n";
    for record in [lost(0), vec![6, 0, 0], vec![7, 0, 0]] {
        let input = [four(), record].concat();
        let expected = format!("shots: 28 bytes, 4 records, 1 code, 0 decodes, 0 refusals\n{left}");
        told(setup, &input, "code 4 1 1\n", &expected)?;
    }
    let input = [four(), lost(4)].concat();
    let expected = format!(
        "shots: record 4 at byte 25, kind 2: refused 8 range: qubit 4 of 4 qubits\n\
         shots: 28 bytes, 4 records, 1 code, 0 decodes, 1 refusal\n{left}"
    );
    told(setup, &input, "code 4 1 1\nrefused 8 2\n", &expected)
}

/// After the last row, in an open shot, in a spoiled one and after a decode.
fn agreeing(setup: &Setup) -> Checked {
    let before = [four(), LOGICAL.to_vec(), lost(0), LOGICAL.to_vec(), lost(1)].concat();
    let shot = [vec![3, 0, 0], LOGICAL.to_vec(), DECODE.to_vec(), LOGICAL.to_vec()].concat();
    let lines = "code 4 1 1\nX unsure 0 2 1 1 flip 1\nZ unsure 0 2 1 1 flip\n";
    let expected = "shots: 50 bytes, 11 records, 1 code, 1 decode, 0 refusals\n";
    told(setup, &[&before[..], &shot].concat(), lines, expected)?;
    let spoiled = [four(), lost(4), LOGICAL.to_vec(), DECODE.to_vec()].concat();
    let expected = "shots: record 4 at byte 25, kind 2: refused 8 range: qubit 4 of 4 qubits\n\
        shots: record 6 at byte 31, kind 5: refused 11 spoiled: a record of this shot was refused\n\
        shots: 35 bytes, 6 records, 1 code, 0 decodes, 2 refusals\n";
    told(setup, &spoiled, "code 4 1 1\nrefused 8 2\nrefused 11 5\n", expected)
}

/// The shot is dropped with the code, which is loaded again.
fn differing(setup: &Setup) -> Checked {
    let dropped = [four(), lost(0), OTHER.to_vec(), LOGICAL.to_vec(), lost(1)].concat();
    let lines = "code 4 1 1\nrefused 17 8\nrefused 7 8\nrefused 7 2\n";
    let refused = "shots: record 5 at byte 28, kind 8: refused 17 encoded: the rows do not encode 13 qubits\n\
        shots: record 6 at byte 31, kind 8: refused 7 codeless: no code is loaded\n\
        shots: 1 more refused with 7\n";
    let expected = format!("{refused}shots: 37 bytes, 7 records, 1 code, 0 decodes, 3 refusals\n");
    told(setup, &dropped, lines, &expected)?;
    let again = [dropped, four(), LOGICAL.to_vec(), lost(2), DECODE.to_vec()].concat();
    let lines = format!("{lines}code 4 1 1\nX certain 0 1 0 0 flip\nZ certain 0 1 0 0 flip\n");
    let expected = format!("{refused}shots: 72 bytes, 13 records, 2 codes, 1 decode, 3 refusals\n");
    told(setup, &again, &lines, &expected)
}

fn equal_refusals(setup: &Setup) -> Checked {
    let input =
        [four(), lost(4), lost(0), lost(5), lost(6), DECODE.to_vec(), lost(7), lost(8)].concat();
    let lines = "code 4 1 1\nrefused 8 2\nrefused 8 2\nrefused 8 2\nrefused 11 5\nrefused 8 2\nrefused 8 2\n";
    let expected = "shots: record 4 at byte 25, kind 2: refused 8 range: qubit 4 of 4 qubits\n\
        shots: 2 more refused with 8\n\
        shots: record 8 at byte 37, kind 5: refused 11 spoiled: a record of this shot was refused\n\
        shots: record 9 at byte 41, kind 2: refused 8 range: qubit 7 of 4 qubits\n\
        shots: 1 more refused with 8\n\
        shots: 47 bytes, 10 records, 1 code, 0 decodes, 6 refusals\n\
        shots: shot left open, not decoded\n";
    told(setup, &input, lines, expected)
}

/// The line of the first refusal on these records, behind where it is.
fn wanted(setup: &Setup, records: &[&[u8]], expected: &str) -> Checked {
    let path = setup.output();
    std::fs::write(&path, records.concat()).map_err(words)?;
    let actual = run(setup.command(), File::open(&path).map_err(words)?.into())?.1;
    let line = actual.lines().next().unwrap_or("");
    let last = records.last().ok_or("no record")?;
    let at: usize = records[..records.len() - 1].iter().map(|record| record.len()).sum();
    let place = format!("shots: record {} at byte {at}, kind {}: refused ", records.len(), last[0]);
    match line.strip_prefix(&place) {
        Some(rest) => same("what is wanted", rest, expected),
        None => Err(format!("{line:?} does not begin {place:?}")),
    }
}

#[rustfmt::skip]
fn each_refusal(setup: &Setup) -> Checked {
    let odd: &[u8] = &[65, 0, 0];
    let cases: [(&[&[u8]], &str); 35] = [
        (&[&[9]], "1 unknown: kinds 1 to 8, 33 to 48 and 65 to 80 wanted"),
        (&[&[1, 4, 0]], "2 length: cut off, 3 of 7 bytes"),
        (&[&[6]], "2 length: cut off, 1 of 3 bytes"),
        (&[&[7, 0]], "2 length: cut off, 2 of 3 bytes"),
        (&[&[8]], "2 length: cut off, 1 of 3 bytes"),
        (&[&[1, 1, 4, 1, 0, 3, 2]], "3 size: 1025 qubits, 1 X rows, 515 Z rows; 1 to 1024 and up to 512 of each wanted"),
        (&[X_ROW], "4 place: no code is loading"),
        (&[SIZES, Z_ROW], "4 place: row 0 of 1 X rows awaited"),
        (&[SIZES, X_ROW, X_ROW], "4 place: row 0 of 1 Z rows awaited"),
        (&[SIZES, X_ROW, Z_ROW, X_ROW], "4 place: the code is complete"),
        (&[SIZES, &[33, 4, 0]], "5 row: qubits below 4, strictly ascending, wanted"),
        (&[SIZES, X_ROW, odd], "6 clash: some X row and some Z row share an odd number of qubits"),
        (&[DECODE], "7 codeless: no code is loaded"),
        (&[SIZES, X_ROW, DECODE], "7 codeless: code incomplete: 1 of 2 rows"),
        (&[&[6, 0, 0]], "7 codeless: no code is loaded"),
        (&[SIZES, X_ROW, &[7, 0, 0]], "7 codeless: code incomplete: 1 of 2 rows"),
        (&[LOGICAL], "7 codeless: no code is loaded"),
        (&[SIZES, X_ROW, LOGICAL], "7 codeless: code incomplete: 1 of 2 rows"),
        (&[SIZES, X_ROW, Z_ROW, &[2, 144, 0]], "8 range: qubit 144 of 4 qubits"),
        (&[SIZES, X_ROW, Z_ROW, &[3, 1, 0]], "8 range: Z row 1 of 1 Z rows"),
        (&[SIZES, X_ROW, Z_ROW, &[4, 1, 1]], "8 range: X row 257 of 1 X rows"),
        (&[SIZES, X_ROW, Z_ROW, &[6, 1, 0]], "8 range: Z row 1 of 1 Z rows"),
        (&[SIZES, X_ROW, Z_ROW, &[7, 1, 1]], "8 range: X row 257 of 1 X rows"),
        (&[SIZES, X_ROW, Z_ROW, &[2, 3, 0], &[2, 3, 0]], "9 twice: qubit 3 is in this shot already"),
        (&[SIZES, X_ROW, Z_ROW, &[4, 0, 0], &[4, 0, 0]], "9 twice: X row 0 is in this shot already"),
        (&[SIZES, X_ROW, Z_ROW, &[3, 0, 0], &[6, 0, 0]], "9 twice: Z row 0 is in this shot already"),
        (&[SIZES, X_ROW, Z_ROW, &[6, 0, 0], &[3, 0, 0]], "9 twice: Z row 0 is in this shot already"),
        (&[SIZES, X_ROW, Z_ROW, &[6, 0, 0], &[6, 0, 0]], "9 twice: Z row 0 is in this shot already"),
        (&[SIZES, X_ROW, Z_ROW, &[4, 0, 0], &[7, 0, 0]], "9 twice: X row 0 is in this shot already"),
        (&[SIZES, X_ROW, Z_ROW, &[2, 3]], "2 length: cut off, 2 of 3 bytes"),
        (&[SIZES, X_ROW, Z_ROW, &[8, 2]], "2 length: cut off, 2 of 3 bytes"),
        (&[SIZES, X_ROW, Z_ROW, OTHER], "17 encoded: the rows do not encode 13 qubits"),
        (&[SIZES, X_ROW, Z_ROW, LOGICAL, &[2, 3, 0], &[8, 0, 0]], "17 encoded: the rows do not encode 0 qubits"),
        (&[SIZES, X_ROW, Z_ROW, &[8, 0, 2]], "17 encoded: the rows do not encode 512 qubits"),
        (&[SIZES, X_ROW, Z_ROW, &[8, 255, 255]], "17 encoded: the rows do not encode 65535 qubits"),
    ];
    cases.iter().try_for_each(|(records, expected)| wanted(setup, records, expected))
}

fn does_not_wait(setup: &Setup) -> Checked {
    let (from, mut to) = no_wait_pipe().map_err(words)?;
    let input = setup.small.input.clone();
    spawn(move || {
        for part in input.chunks(97) {
            sleep(Duration::from_micros(500));
            if to.write_all(part).is_err() {
                return;
            }
        }
    });
    let actual = run(setup.command(), from.into())?;
    let truth = String::from_utf8_lossy(&setup.small.truth.output).into_owned();
    same("standard output", &actual.0, &truth)
}

/// An argument, with records at hand.
fn argument(setup: &Setup, arguments: &[&str]) -> Result<(String, String), String> {
    let mut command = setup.command();
    command.args(arguments);
    run(command, setup.small.open()?.into())
}

fn help(setup: &Setup) -> Checked {
    let actual = argument(setup, &["--help"])?;
    match actual.0.starts_with("usage: shots < RECORDS\n") && !actual.0.contains("code 64") {
        true => same("standard error", &actual.1, ""),
        false => Err(format!("standard output: {:?}", actual.0)),
    }
}

fn version(setup: &Setup) -> Checked {
    let actual = argument(setup, &["--version"])?;
    same("standard output", &actual.0, "shots 8\n")?;
    same("standard error", &actual.1, "")
}

fn another_argument(setup: &Setup) -> Checked {
    for arguments in [
        &["records"][..],
        &[""],
        &["--helpful"],
        &["-"],
        &["--help", "--version"],
        &[&"x".repeat(9_000)],
    ] {
        let actual = argument(setup, arguments)?;
        same("standard output", &actual.0, "")?;
        let expected = "shots: takes no argument but --help or --version; records are read from standard input\n";
        same("standard error", &actual.1, expected)?;
    }
    Ok(())
}
