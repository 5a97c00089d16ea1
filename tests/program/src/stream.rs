//! Streams of records, made so that it is known how the lines of each begin.
//!
//! First a code without rows and shots on it, without a loss at first, whose answers are many times as long as
//! their records. Then a code whose rows have one qubit each, the Z rows the first qubits and the X rows the
//! others: every lost qubit that is lit is flipped, so that lines are long, and one whose row is not read is a
//! guess. Logical qubits are compared now and then. Some records are refused, the last ones without a code, and the last of
//! all is cut off.

use crate::random::Random;

pub struct Record {
    pub bytes: Vec<u8>,
    /// How each of its lines begins.
    pub lines: Vec<String>,
}

const SMALL: usize = 64;
/// The Z rows of the large code, and its X rows.
const ROWS: usize = 256;
const LARGE: usize = 2 * ROWS;

const LOST: u8 = 2;
const LIT_Z: u8 = 3;
const LIT_X: u8 = 4;
const UNREAD_Z: u8 = 6;
const UNREAD_X: u8 = 7;
const LOGICAL: u8 = 8;

fn record(kind: u8, numbers: &[usize], lines: &[&str]) -> Record {
    let low = |number: &usize| (*number as u16).to_le_bytes();
    let bytes = [kind].into_iter().chain(numbers.iter().flat_map(low)).collect();
    Record { bytes, lines: lines.iter().map(|line| line.to_string()).collect() }
}

fn decode(budget: u8, lines: &[&str]) -> Record {
    let mut decode = record(5, &[], lines);
    decode.bytes.extend([budget, 0xff, 0xff]);
    decode
}

/// So many shots without a loss, with few qubits and with many.
pub fn stream(seed: u64, empty: usize, few: usize, many: usize) -> Vec<Record> {
    let mut random = Random::new(seed);
    let mut records = vec![record(1, &[SMALL, 0, 0], &["code 64 0 0\n"])];
    records.extend(
        (0..empty).map(|_| decode(63, &["X certain 0 0 0 0 flip\n", "Z certain 0 0 0 0 flip\n"])),
    );
    for _ in 0..few {
        shot(&mut records, &mut random, SMALL, 0);
    }
    load(&mut records);
    for _ in 0..many {
        shot(&mut records, &mut random, LARGE, ROWS);
    }
    records.push(record(LOGICAL, &[1], &["refused 17 8\n"]));
    records.push(record(LOST, &[0], &["refused 7 2\n"]));
    records.push(record(LOST, &[0], &["refused 2 2\n"]));
    records.last_mut().expect("just put").bytes.pop();
    records
}

/// The large code; its last row has the line.
fn load(records: &mut Vec<Record>) {
    records.push(record(1, &[LARGE, ROWS, ROWS], &[]));
    records.extend((ROWS..LARGE).map(|qubit| record(33, &[qubit], &[])));
    records.extend((0..ROWS).map(|qubit| record(65, &[qubit], &[])));
    records.last_mut().expect("rows").lines.push("code 512 256 256\n".into());
}

/// Lost qubits, where there are rows most of them lit and some unread, sometimes the logical qubits, and the decode; sometimes one
/// that is refused.
fn shot(records: &mut Vec<Record>, random: &mut Random, n: usize, rows: usize) {
    let chance = [3, 30, 97][random.below(3)];
    let mut named = None;
    let lost: Vec<usize> = (0..n).filter(|_| random.percent(chance)).collect();
    for &qubit in &lost {
        records.push(record(LOST, &[qubit], &[]));
        if rows > 0 && random.percent(95) {
            let row = qubit % rows;
            let [lit, unread] = if qubit < rows { [LIT_Z, UNREAD_Z] } else { [LIT_X, UNREAD_X] };
            let kind = if random.percent(5) { unread } else { lit };
            records.push(record(kind, &[row], &[]));
            named = Some((unread, row));
        }
    }
    if random.percent(20) {
        // Each row has a qubit of its own, of both kinds.
        records.push(record(LOGICAL, &[n - 2 * rows], &[]));
    }
    match (random.below(24), named, lost.first()) {
        (0, ..) => spoiled(records, record(LOST, &[n], &["refused 8 2\n"])),
        (1, ..) => spoiled(records, record(UNREAD_Z, &[rows], &["refused 8 6\n"])),
        (2, Some((kind, row)), _) => {
            spoiled(records, record(kind, &[row], &[&format!("refused 9 {kind}\n")]))
        }
        (3 | 4, _, Some(&qubit)) => spoiled(records, record(LOST, &[qubit], &["refused 9 2\n"])),
        _ => records.push(decode(63, &["X ", "Z "])),
    }
}

/// A record that is refused, and the decode of the shot that this spoils.
fn spoiled(records: &mut Vec<Record>, refused: Record) {
    records.push(refused);
    records.push(decode(63, &["refused 11 5\n"]));
}

pub fn bytes(records: &[Record]) -> Vec<u8> {
    records.iter().flat_map(|record| record.bytes.clone()).collect()
}
