//! Single records that are often refused.

use crate::codes::{rank, Code, QUBITS, WEIGHT};
use crate::form::WORDS;
use crate::half::Asked;
use crate::random::Random;
use crate::records;
use crate::stream::{Lent, Model, Record, Z_ROW};

/// A record that often, but not always, can be carried out.
pub fn stray(random: &mut Random, model: &Model) -> Record {
    let n = model.code().map_or(4, |code| code.n);
    match (model.awaited(), random.below(11)) {
        (Some((n, kind)), 0) => row(random, kind, n),
        (Some((n, kind)), 1..=4) => records::row(kind, &random.subset(n, 1, WEIGHT)),
        (None, 0..=3) if model.code().is_none() => tiny_sizes(random),
        (_, 0) => tiny_sizes(random),
        (_, 1) => bad_sizes(random),
        (_, 2) => row(random, Z_ROW, n),
        (_, 3 | 4) => {
            let budget = random.pick(&[0, 1, 2, 63, 64, 255]);
            records::decode(Asked { budget, limit: random.below(6) })
        }
        (_, 5) => records::logical(match model.code() {
            Some(code) if random.percent(80) => code.k(),
            Some(code) => miscounted(random, code),
            None => random.within(0, 4),
        }),
        _ => {
            let kind = random.pick(&[2, 2, 2, 3, 4, 6, 7]);
            records::number(kind, random.within(0, n.min(4)))
        }
    }
}

fn tiny_sizes(random: &mut Random) -> Record {
    records::sizes(random.within(1, 4), random.within(0, 2), random.within(0, 2))
}

/// A row that is mostly, but not always, in order and range.
pub fn row(random: &mut Random, kind: u8, n: usize) -> Record {
    let mut qubits: Vec<usize> = (0..random.within(1, 4)).map(|_| random.within(0, n)).collect();
    if random.percent(70) {
        qubits.sort();
        qubits.dedup();
    }
    records::row(kind, &qubits)
}

pub fn bad_sizes(random: &mut Random) -> Record {
    let (n, x, z) = random.pick(&[
        (0, 0, 0),
        (0, 1, 1),
        (1025, 1, 1),
        (65_535, 0, 0),
        (4, 513, 1),
        (4, 1, 513),
        (1, 0, 65_535),
        (1025, 513, 513),
    ]);
    records::sizes(n, x, z)
}

/// A number of logical qubits that a wrong comparison may take for the code's; sometimes it is the code's.
pub fn miscounted(random: &mut Random, code: &Code) -> usize {
    let Code { n, x, z } = code;
    match random.below(12) {
        0 | 1 => code.k() + 1,
        2 | 3 => code.k().wrapping_sub(1),
        4 | 5 => n.wrapping_sub(x.len() + z.len()),
        6 => n - rank(*n, x),
        7 => n - rank(*n, z),
        8 => (code.k() as u16).swap_bytes().into(),
        9 => code.k() + 256,
        10 => random.pick(&[0, *n]),
        _ => 65_535,
    }
}

/// An unknown or cut-off record, which ends a program.
pub fn ending(random: &mut Random, mut record: Record) -> Record {
    if random.percent(50) {
        record[0] = random.pick(&[0, 9, 10, 31, 32, 49, 63, 64, 81, 96, 97, 128, 255]);
    } else {
        record.truncate(random.within(1, record.len() - 1));
    }
    record
}

/// A record of unknown kind or of a length that is not its kind's.
pub fn malformed(random: &mut Random, mut record: Record) -> Record {
    match random.below(4) {
        0 => record.clear(),
        1 => record.push(random.below(256) as u8),
        _ => return ending(random, record),
    }
    record
}

/// The records with some tried before on a list that is too short.
pub fn shortened(random: &mut Random, records: Vec<Record>, chance: usize) -> Vec<(Record, Lent)> {
    let mut calls = Vec::new();
    for record in records {
        if random.percent(chance) {
            let lent = match random.below(4) {
                0 | 1 => Lent { short: true, ..Lent::AMPLE },
                2 => Lent { room: random.below(QUBITS), ..Lent::AMPLE },
                _ => Lent { forms: random.below(WORDS * QUBITS), ..Lent::AMPLE },
            };
            calls.push((record.clone(), lent));
        }
        calls.push((record, Lent::AMPLE));
    }
    calls
}
