//! The elimination decoder as a program: records from standard input, lines to standard output.

use crate::decoder::{Answer, Decoder};
use crate::eliminate::Found;
use judge::codes::{Code, QUBITS};
use judge::shots::NAMES;
use judge::stream::body;
use std::io::{self, BufRead, BufReader, BufWriter, Read, Write};

const BLOCK: usize = 1 << 16;

pub fn eliminate() -> Result<(), String> {
    decode().map_err(|error| format!("eliminate: {error}"))
}

fn decode() -> io::Result<()> {
    let mut input = BufReader::with_capacity(BLOCK, io::stdin().lock());
    let mut output = BufWriter::with_capacity(BLOCK, io::stdout().lock());
    let numbers: Vec<String> = (0..=QUBITS).map(|number| format!(" {number}")).collect();
    let mut decoder = Decoder::new();
    let mut record = [0; 33];
    while let Some(&kind) = input.fill_buf()?.first() {
        let length = body(kind).ok_or_else(|| io::Error::other(format!("kind {kind}")))?;
        let record = &mut record[..=length];
        input.read_exact(record)?;
        match decoder.take(record) {
            Answer::Taken => {}
            Answer::Complete => {
                let Code { n, x, z } = &decoder.code;
                writeln!(output, "code {n} {} {}", x.len(), z.len())?;
            }
            Answer::Decoded => {
                for (name, found) in NAMES.into_iter().zip(&decoder.found) {
                    write_half(&mut output, name, found, &numbers)?;
                }
            }
        }
    }
    output.flush()
}

fn write_half(out: &mut impl Write, name: char, found: &Found, text: &[String]) -> io::Result<()> {
    out.write_all(&[name as u8, b' '])?;
    out.write_all(found.word().name().as_bytes())?;
    out.write_all(text[found.fixed].as_bytes())?;
    out.write_all(text[found.live()].as_bytes())?;
    if found.fits {
        out.write_all(b" flip")?;
        for &qubit in &found.flips {
            out.write_all(text[usize::from(qubit)].as_bytes())?;
        }
    }
    out.write_all(b"\n")
}
