//! The program shots, by the model: records in, lines out.

use crate::half::{Counts, Said, Word};
use crate::machine;
use crate::shot::Decode;
use crate::stream::{Answer, Lent, Model, Record};
use crate::wrong::Wrong;

/// Splits a stream into records by kind; an unknown or cut-off one is the last.
pub fn split(mut bytes: &[u8], wrong: Wrong) -> Vec<Record> {
    let mut records = Vec::new();
    while let Some(&kind) = bytes.first() {
        let end = match wrong.body(kind) {
            Some(length) => 1 + length,
            None if wrong == Wrong::UnknownGoesOn => 1,
            None => bytes.len(),
        };
        if end > bytes.len() && wrong == Wrong::CutOffSilent {
            break;
        }
        let (record, rest) = bytes.split_at(end.min(bytes.len()));
        records.push(record.to_vec());
        bytes = rest;
    }
    records
}

/// A printed line, and the half that a decode's line is about.
pub struct Line {
    pub record: usize,
    pub text: String,
    pub about: Option<(Decode, usize)>,
}

pub const NAMES: [char; 2] = ['X', 'Z'];

/// The lines that the records of one run print.
pub fn lines(records: &[Record], wrong: Wrong) -> Vec<Line> {
    let mut model = Model::new(wrong);
    let mut lines = Vec::new();
    for (at, record) in records.iter().enumerate() {
        let mut print = |text, about| lines.push(Line { record: at, text, about });
        match model.step(record, Lent::AMPLE) {
            Answer::Refused { number, kind } => print(format!("refused {number} {kind}"), None),
            Answer::Complete(code) => {
                print(format!("code {} {} {}", code.n, code.x.len(), code.z.len()), None)
            }
            Answer::Decode(decode) => {
                for (which, half) in decode.halves().iter().enumerate() {
                    let said = machine::decode_by(wrong, half, decode.asked).said();
                    let name = NAMES[if wrong == Wrong::HalvesCrossed { 1 - which } else { which }];
                    print(say(name, &said), Some((decode.clone(), which)));
                }
            }
            Answer::Taken => {}
        }
    }
    lines
}

pub fn text(lines: &[Line]) -> String {
    lines.iter().flat_map(|line| [&line.text, "\n"]).collect()
}

pub fn say(name: char, said: &Said) -> String {
    let Counts { fixed, turns, guesses, live } = said.counts;
    let word = said.word.name();
    let mut line = format!("{name} {word} {fixed} {turns} {guesses} {live}");
    if let Some(flips) = &said.flips {
        line.push_str(&flip(flips));
    }
    line
}

pub fn flip(qubits: &[usize]) -> String {
    let numbers: String = qubits.iter().map(|qubit| format!(" {qubit}")).collect();
    format!(" flip{numbers}")
}

/// Reads a half's line; nothing but what `say` prints is read.
pub fn read(name: char, line: &str) -> Option<Said> {
    let mut parts = line.strip_prefix(name)?.strip_prefix(' ')?.split(' ');
    let word = parts.next()?;
    let word = Word::ALL.into_iter().find(|known| known.name() == word)?;
    let mut number = || parts.next()?.parse().ok();
    let counts = Counts { fixed: number()?, turns: number()?, guesses: number()?, live: number()? };
    let flips = match parts.next() {
        None => None,
        Some("flip") => Some(parts.map(|part| part.parse().ok()).collect::<Option<_>>()?),
        Some(_) => return None,
    };
    let said = Said { word, counts, flips };
    (say(name, &said) == line).then_some(said)
}

/// A stream in hexadecimal, one record a line.
pub fn hexadecimal(records: &[Record]) -> String {
    let line = |record: &Record| {
        let bytes: Vec<String> = record.iter().map(|byte| format!("{byte:02x}")).collect();
        bytes.join(" ") + "\n"
    };
    records.iter().map(line).collect()
}
