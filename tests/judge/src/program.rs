//! Runs a program on streams, compares its lines with the model's and judges them.

use crate::bench;
use crate::generate::{records, Mix};
use crate::judge::{verdict, Judged};
use crate::random::Random;
use crate::shots::{lines, read, split, text, Line, NAMES};
use crate::stream::Record;
use crate::wrong::Wrong;
use std::collections::BTreeMap;
use std::io::{self, Read, Write};
use std::process::{Child, ChildStdin, Command, Stdio};
use std::sync::mpsc::channel;
use std::thread;
use std::time::{Duration, Instant};

pub struct Program {
    pub path: String,
    pub args: Vec<String>,
}

/// A stream whose lines are wrong, and the first of them.
pub struct Failure {
    pub records: Vec<Record>,
    pub record: usize,
    pub expected: String,
    pub actual: String,
    /// How many shots passed before this stream.
    pub passed: usize,
    /// What elimination says about the actual line.
    pub judged: Judged,
}

/// How often each word and each refusal was met.
pub type Seen = BTreeMap<String, usize>;

const PATIENCE: Duration = Duration::from_secs(30);
const SHRINKING: Duration = Duration::from_secs(20);

impl Program {
    pub fn bench(&self) -> Result<Seen, Failure> {
        let mut seen = Seen::new();
        for bench in bench::all() {
            self.examine(&bench.records, &mut seen)?;
        }
        Ok(seen)
    }

    /// The streams of a seed, with so many shots.
    pub fn seed(&self, seed: u64, shots: usize) -> Result<Seen, Failure> {
        let mut seen = Seen::new();
        for (passed, stream) in streams(seed, shots) {
            self.examine(&stream, &mut seen).map_err(|failure| Failure { passed, ..failure })?;
        }
        Ok(seen)
    }

    fn examine(&self, records: &[Record], seen: &mut Seen) -> Result<(), Failure> {
        let bytes = records.concat();
        assert_eq!(split(&bytes, Wrong::Nothing), records, "the stream splits as made");
        let expected = lines(records, Wrong::Nothing);
        for line in &expected {
            let words: Vec<&str> = line.text.split(' ').collect();
            let named = if words[0] == "code" { 1 } else { 2 };
            *seen.entry(words[..named].join(" ")).or_default() += 1;
        }
        let actual = self.run(bytes).unwrap_or_else(|trouble| trouble);
        compare(records, &expected, &actual)
    }

    /// What the program prints.
    fn run(&self, input: Vec<u8>) -> Result<String, String> {
        let mut child = Command::new(&self.path)
            .args(&self.args)
            .stdin(Stdio::piped())
            .stdout(Stdio::piped())
            .spawn()
            .map_err(|error| format!("{}: {error}", self.path))?;
        let to = child.stdin.take().expect("piped");
        let mut from = child.stdout.take().expect("piped");
        thread::spawn(move || feed(to, &input));
        let (sender, receiver) = channel();
        thread::spawn(move || {
            let mut output = Vec::new();
            let end = from.read_to_end(&mut output);
            sender.send(end.map(|_| output))
        });
        let output = receiver.recv_timeout(PATIENCE);
        end(&mut child, output.is_err()).map_err(|error| error.to_string())?;
        let output = output.map_err(|_| "no end of output")?.map_err(|error| error.to_string())?;
        Ok(String::from_utf8_lossy(&output).into_owned())
    }

    /// Drops records while the stream still fails.
    pub fn shrink(&self, mut failure: Failure) -> Failure {
        let start = Instant::now();
        let mut size = failure.records.len();
        while size > 0 && start.elapsed() < SHRINKING {
            let mut at = 0;
            while at < failure.records.len() && start.elapsed() < SHRINKING {
                let mut fewer = failure.records.clone();
                fewer.truncate(failure.record + 1);
                fewer.drain(at.min(fewer.len())..(at + size).min(fewer.len()));
                match self.examine(&fewer, &mut Seen::new()) {
                    Err(still) => failure = still,
                    Ok(()) => at += size,
                }
            }
            size /= 2;
        }
        failure
    }
}

/// Random streams with so many shots, and how many there were before each.
pub fn streams(seed: u64, shots: usize) -> impl Iterator<Item = (usize, Vec<Record>)> {
    let mut random = Random::new(seed);
    let mut done = 0;
    std::iter::from_fn(move || {
        let some = random.pick(&[1, 4, 16, 64, 256]).min(shots - done);
        let trouble = random.pick(&[0, 5, 15, 40]);
        let mix = Mix { trouble, wild: false, family: None };
        let before = done;
        done += some;
        (some > 0).then(|| (before, records(&mut random, some, mix)))
    })
}

/// Writes the input, a short one in pieces; a program may end before it is all read.
fn feed(mut to: ChildStdin, input: &[u8]) {
    let (piece, pause) =
        if input.len() < 100 { (3, Duration::from_micros(200)) } else { (1 << 16, Duration::ZERO) };
    for part in input.chunks(piece) {
        if to.write_all(part).is_err() {
            return;
        }
        thread::sleep(pause);
    }
}

/// Waits for the end; a death by signal that is not ours is an error.
fn end(child: &mut Child, hung: bool) -> io::Result<()> {
    if hung {
        child.kill()?;
    }
    let status = child.wait()?;
    match status.code() {
        None if !hung => Err(io::Error::other(format!("{status}"))),
        _ => Ok(()),
    }
}

/// The first line that differs from the model's or is judged wrong.
fn compare(records: &[Record], expected: &[Line], actual: &str) -> Result<(), Failure> {
    let mut printed = actual.split_inclusive('\n');
    let fail = |record: usize, expected: &str, actual: Option<&str>, judged: Judged| Failure {
        records: records.to_vec(),
        record,
        expected: expected.into(),
        actual: actual.unwrap_or("nothing").trim_end_matches('\n').into(),
        judged,
        passed: 0,
    };
    for line in expected {
        let actual = printed.next();
        let judged = judge_line(line, actual.unwrap_or_default());
        let same = actual.and_then(|actual| actual.strip_suffix('\n')) == Some(&line.text);
        if !same || judged.is_err() {
            return Err(fail(line.record, &line.text, actual, judged));
        }
    }
    match printed.next() {
        None if actual == text(expected) => Ok(()),
        more => Err(fail(records.len().saturating_sub(1), "no more", more, Ok(()))),
    }
}

fn judge_line(line: &Line, actual: &str) -> Judged {
    let Some((decode, which)) = &line.about else {
        return Ok(());
    };
    let actual = actual.trim_end_matches('\n');
    let said = read(NAMES[*which], actual).ok_or("no half's line")?;
    let half = &decode.halves()[*which];
    verdict(half).judge(half, decode.asked, &said)
}
