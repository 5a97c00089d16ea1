//! Codes as large as document 01 allows, compared with the model call by call.

use crate::lengths::Lengths;
use crate::session::Session;
use crate::{watch, Checked};
use judge::codes::{Code, QUBITS, ROWS, WEIGHT};
use judge::half::Row;
use judge::judge::Judged;
use judge::known::{surface, toric};
use judge::losses;
use judge::random::Random;
use judge::records;

pub fn large(seed: u64, shots: usize) -> Checked {
    let mut random = Random::new(seed);
    let mut session = Session::new(random.word(), 1);
    for code in [surface(32), toric(22), full(), sparse(&mut random)] {
        let code = code.mixed(&mut random);
        watch::case();
        session.restart();
        load(&mut session, &code)?;
        for _ in 0..shots.div_ceil(200) {
            let shot = losses::shot(&mut random, &code);
            let asked = losses::asked(&mut random, &code, &shot);
            session.calls(&records::shot(&shot), Lengths::above)?;
            session.calls(&[records::decode(asked)], Lengths::above)?;
        }
    }
    for code in [dense(&mut random), apart()] {
        watch::case();
        session.restart();
        load(&mut session, &code)?;
        session.calls(&[records::logical(code.k() + 1)], Lengths::above)?;
    }
    Ok(session.caller.tally.to_string())
}

/// The code, and its logical qubits compared.
fn load(session: &mut Session, code: &Code) -> Judged {
    session.calls(&records::load(code), Lengths::above)?;
    session.calls(&[records::logical(code.k())], Lengths::above)
}

/// All rows that a code can have, each of the largest weight and most of them independent.
fn dense(random: &mut Random) -> Code {
    let mut rows = |from: usize| -> Vec<Row> {
        let row =
            |_| random.subset(ROWS, WEIGHT, WEIGHT).iter().map(|qubit| from + qubit).collect();
        (0..ROWS).map(row).collect()
    };
    Code { n: QUBITS, x: rows(0), z: rows(ROWS) }
}

/// All rows that a code can have, on a qubit of its own each: nothing is encoded.
fn apart() -> Code {
    let rows = |from: usize| (from..from + ROWS).map(|qubit| vec![qubit]).collect();
    Code { n: QUBITS, x: rows(0), z: rows(ROWS) }
}

/// All rows that a code can have, each of the largest weight: they fill `flat` and `ends`.
fn full() -> Code {
    let block = |at: usize| (0..WEIGHT).map(|qubit| (at * WEIGHT + qubit) % QUBITS).collect();
    let rows: Vec<_> = (0..ROWS).map(block).collect();
    Code { n: QUBITS, x: rows.clone(), z: rows }
}

/// All qubits that a code can have on few rows of the largest weight, of one kind.
fn sparse(random: &mut Random) -> Code {
    let x = (0..ROWS / 4).map(|_| random.subset(QUBITS, WEIGHT, WEIGHT)).collect();
    Code { n: QUBITS, x, z: Vec::new() }
}
