//! Records as bytes.

use crate::codes::Code;
use crate::half::{Asked, Row};
use crate::shot::{Decode, Shot, KINDS};
use crate::stream::{Record, LOGICAL, X_ROW, Z_ROW};

fn record(kind: u8, numbers: &[usize]) -> Record {
    let low = |number: &usize| (*number as u16).to_le_bytes();
    [kind].into_iter().chain(numbers.iter().flat_map(low)).collect()
}

pub fn sizes(n: usize, x: usize, z: usize) -> Record {
    record(1, &[n, x, z])
}

/// A row of `X_ROW` or `Z_ROW` kind.
pub fn row(kind: u8, row: &[usize]) -> Record {
    record(kind + row.len() as u8, row)
}

/// A lost qubit (2), a lit Z row (3) or X row (4), an unread Z row (6) or X row (7).
pub fn number(kind: u8, number: usize) -> Record {
    record(kind, &[number])
}

/// The code's logical qubits, modulo 65,536.
pub fn logical(k: usize) -> Record {
    record(LOGICAL, &[k])
}

pub fn decode(asked: Asked) -> Record {
    let [low, high] = (asked.limit as u16).to_le_bytes();
    vec![5, asked.budget as u8, low, high]
}

pub fn load(code: &Code) -> Vec<Record> {
    let rows = |kind: u8, rows: &[Row]| -> Vec<Record> {
        rows.iter().map(|qubits| row(kind, qubits)).collect()
    };
    let first = sizes(code.n, code.x.len(), code.z.len());
    [vec![first], rows(X_ROW, &code.x), rows(Z_ROW, &code.z)].concat()
}

pub fn shot(shot: &Shot) -> Vec<Record> {
    let set = |kind: u8| {
        let places = shot.set(kind).ones();
        places.into_iter().map(move |place| number(kind, place))
    };
    KINDS.into_iter().flat_map(set).collect()
}

/// The records that make one decode from a fresh start.
pub fn whole(made: &Decode) -> Vec<Record> {
    [load(&made.code), shot(&made.shot), vec![decode(made.asked)]].concat()
}
