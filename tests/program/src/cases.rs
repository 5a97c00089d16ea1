//! The cases: each is an output, or an input, that does not take or give all at once.

use crate::child::{closed_output, failure, no_pipe_signal, said, size_limit, small_pipe, start};
use crate::random::Random;
use crate::setup::{Setup, Stream};
use std::fs::{read, File, OpenOptions};
use std::io::{Read, Write};
use std::process::{Child, Command, Stdio};
use std::thread::{sleep, spawn, JoinHandle};
use std::time::Duration;

type Checked = Result<(), String>;
type Case = fn(&Setup) -> Checked;

pub const ALL: [(&str, Case); 8] = [
    ("a full device", full_device),
    ("a closed output", closed),
    ("a limit on the file's size", size_limits),
    ("a reader that closes early", early_close),
    ("a slow reader on a pipe that does not wait", does_not_wait),
    ("a slow reader on a pipe, and input by single bytes", single_bytes),
    ("calls that are interrupted, wait or move little", little),
    ("a write that fails once", fails_once),
];

fn words(error: std::io::Error) -> String {
    error.to_string()
}

fn same<T: PartialEq + std::fmt::Debug>(what: &str, actual: T, expected: T) -> Checked {
    match actual == expected {
        true => Ok(()),
        false => Err(format!("{what}: {actual:?} instead of {expected:?}")),
    }
}

/// The output is the first bytes of the true one.
fn prefix(stream: &Stream, output: &[u8], length: usize) -> Checked {
    let truth = &stream.truth.output;
    if let Some(at) = (0..output.len()).find(|at| truth.get(*at) != Some(&output[*at])) {
        return Err(format!("byte {at} of the output is not the true one"));
    }
    same("bytes of output", output.len(), length)
}

/// An output that takes nothing: the program ends, though its input does not.
fn takes_nothing(setup: &Setup, mut command: Command) -> Checked {
    let stream = &setup.large;
    let mut child = start(command.stdin(Stdio::piped()))?;
    let mut to = child.stdin.take().ok_or("no standard input")?;
    let _ = to.write_all(&stream.input[..4000]);
    same("standard error", failure(&said(child)?), stream.truth.told(0))?;
    same("records answered", stream.truth.answered(0), 0)
}

fn full_device(setup: &Setup) -> Checked {
    let full = OpenOptions::new().write(true).open("/dev/full").map_err(words)?;
    let mut command = setup.command();
    command.stdout(full);
    takes_nothing(setup, command)
}

fn closed(setup: &Setup) -> Checked {
    let mut command = setup.command();
    closed_output(&mut command);
    takes_nothing(setup, command)
}

/// Runs on a stream with the output in a file, which must hold its first bytes.
fn to_file(setup: &Setup, stream: &Stream, mut command: Command, limit: usize) -> Checked {
    let path = setup.output();
    command.stdin(stream.open()?).stdout(File::create(&path).map_err(words)?);
    let told = failure(&said(start(&mut command)?)?);
    prefix(stream, &read(&path).map_err(words)?, limit)?;
    let failed = limit < stream.truth.output.len();
    same("standard error", told, if failed { stream.truth.told(limit) } else { String::new() })
}

fn size_limits(setup: &Setup) -> Checked {
    let whole = setup.large.truth.output.len();
    let mut limits = setup.large.truth.places(&mut Random::new(2));
    limits.push(whole);
    for limit in limits {
        let mut command = setup.command();
        size_limit(&mut command, limit);
        to_file(setup, &setup.large, command, limit)
            .map_err(|why| format!("limit {limit}: {why}"))?;
    }
    Ok(())
}

/// The bytes taken and the records answered that standard error was told.
fn numbers(told: &str) -> Option<(usize, usize)> {
    let rest = told.strip_prefix("shots: writing failed after ")?;
    let (bytes, rest) = rest.split_once(" bytes; ")?;
    let records = rest.strip_suffix(" records were answered in full\n")?;
    Some((bytes.parse().ok()?, records.parse().ok()?))
}

fn early_close(setup: &Setup) -> Checked {
    for take in [0, 1, 5_000, 200_000] {
        closes_after(setup, take).map_err(|why| format!("after {take} bytes: {why}"))?;
    }
    Ok(())
}

/// The reader reads so many bytes; the pipe may have taken more.
fn closes_after(setup: &Setup, take: usize) -> Checked {
    let truth = &setup.large.truth;
    let mut command = setup.command();
    no_pipe_signal(&mut command);
    let mut child = start(command.stdin(setup.large.open()?).stdout(Stdio::piped()))?;
    let mut from = child.stdout.take().ok_or("no standard output")?;
    let mut output = vec![0; take];
    from.read_exact(&mut output).map_err(words)?;
    drop(from);
    let told = failure(&said(child)?);
    prefix(&setup.large, &output, take)?;
    let (bytes, records) = numbers(&told).ok_or(format!("standard error: {told:?}"))?;
    same("bytes within what can be taken", (take..truth.output.len()).contains(&bytes), true)?;
    same("records answered", records, truth.answered(bytes))
}

/// Reads to the end, little at a time and with pauses.
fn slowly(
    mut from: impl Read + Send + 'static,
    pause: Duration,
) -> JoinHandle<Result<Vec<u8>, String>> {
    spawn(move || {
        let mut random = Random::new(3);
        let mut output = Vec::new();
        let mut part = [0; 6000];
        loop {
            let most = 1 + random.below(part.len());
            match from.read(&mut part[..most]).map_err(words)? {
                0 => return Ok(output),
                got => output.extend(&part[..got]),
            }
            sleep(pause);
        }
    })
}

/// All of the output arrived, and standard error was told of no failed write.
fn arrived(stream: &Stream, child: Child, reader: JoinHandle<Result<Vec<u8>, String>>) -> Checked {
    let told = failure(&said(child)?);
    let output = reader.join().map_err(|_| "the reader failed")??;
    prefix(stream, &output, stream.truth.output.len())?;
    same("standard error", told, String::new())
}

fn does_not_wait(setup: &Setup) -> Checked {
    let (from, to) = small_pipe().map_err(words)?;
    let child = start(setup.command().stdin(setup.large.open()?).stdout(to))?;
    arrived(&setup.large, child, slowly(from, Duration::from_micros(300)))
}

fn single_bytes(setup: &Setup) -> Checked {
    let mut child = start(setup.command().stdin(Stdio::piped()).stdout(Stdio::piped()))?;
    let from = child.stdout.take().ok_or("no standard output")?;
    let mut to = child.stdin.take().ok_or("no standard input")?;
    let input = setup.small.input.clone();
    spawn(move || input.chunks(1).all(|byte| to.write_all(byte).is_ok()));
    arrived(&setup.small, child, slowly(from, Duration::from_millis(1)))
}

fn shimmed(setup: &Setup, plan: &str) -> Command {
    let mut command = setup.command();
    command.env("LD_PRELOAD", &setup.shim).env("SHIM", plan);
    command
}

fn little(setup: &Setup) -> Checked {
    let whole = setup.small.truth.output.len();
    to_file(setup, &setup.small, shimmed(setup, "little"), whole)
}

/// What is not written after a write that failed is not written by a later one.
fn fails_once(setup: &Setup) -> Checked {
    const ANSWERS_0: i32 = 0;
    const EIO: i32 = 5;
    const ENOSPC: i32 = 28;
    let truth = &setup.large.truth;
    for (at, error) in truth
        .places(&mut Random::new(4))
        .into_iter()
        .zip([ANSWERS_0, EIO, ENOSPC].into_iter().cycle())
    {
        let command = shimmed(setup, &format!("{at} {error}"));
        let named = |why| format!("error {error} after {at} bytes: {why}");
        to_file(setup, &setup.large, command, at).map_err(named)?;
    }
    Ok(())
}
