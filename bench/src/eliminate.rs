//! A half by elimination: one elimination, on the lost qubits alone, of the checks that were read
//! with their lit bits, and then of the logical operators and the other checks.

use crate::codes::logicals;
use crate::matrix::Matrix;
use judge::half::{Row, Word};

/// What is found out about a half.
#[derive(Default)]
pub struct Found {
    pub fits: bool,
    pub fixed: usize,
    pub classes: usize,
    /// The qubits of an error that fits, ascending.
    pub flips: Vec<u16>,
}

impl Found {
    pub fn word(&self) -> Word {
        match (self.fits, self.classes) {
            (false, _) => Word::None,
            (true, 0) => Word::Certain,
            (true, _) => Word::Unsure,
        }
    }

    pub fn live(&self) -> usize {
        if self.fits {
            self.classes
        } else {
            0
        }
    }
}

/// The lost qubits, descending, and the lit and the unread checks of a half.
pub struct Shot<'a> {
    pub lost: &'a [u16],
    pub lit: &'a [u16],
    pub unread: &'a [u16],
}

/// The checks of a half and, numbered from the next multiple of 64 on, its logical operators.
pub struct Half {
    checks: usize,
    rows: usize,
    /// The rows on each qubit.
    on: Vec<Vec<u16>>,
}

impl Half {
    pub fn new(n: usize, checks: &[Row], other: &[Row]) -> Half {
        let logicals = logicals(n, checks, other);
        let first = checks.len().next_multiple_of(64);
        let mut on = vec![Vec::new(); n];
        for (at, row) in checks.iter().enumerate().chain((first..).zip(&logicals)) {
            row.iter().for_each(|&qubit| on[qubit].push(at as u16));
        }
        Half { checks: first, rows: first + logicals.len().next_multiple_of(64), on }
    }

    /// An error on the lost qubits that no row tells from nothing is a product of other-kind rows,
    /// and a column where no row leads is the lowest qubit of one: it is fixed.
    pub fn decode(&self, shot: &Shot, matrix: &mut Matrix, found: &mut Found) {
        let Shot { lost, lit, unread } = *shot;
        let rows = self.rows + unread.len().next_multiple_of(64);
        matrix.start(rows, lost.len());
        for (column, &qubit) in lost.iter().enumerate() {
            for &row in &self.on[usize::from(qubit)] {
                matrix.set(row.into(), column);
            }
        }
        for &row in lit {
            matrix.set(row.into(), lost.len());
        }
        for (to, &row) in (self.rows..).zip(unread) {
            matrix.shift(row.into(), to);
        }
        let checks = matrix.reduce(0..self.checks);
        found.fits = !checks.contradiction;
        found.flips.clear();
        if found.fits {
            matrix.solve(|column| found.flips.push(lost[column]));
        }
        found.classes = matrix.reduce(self.checks..rows).rank;
        found.fixed = lost.len() - checks.rank - found.classes;
    }
}
