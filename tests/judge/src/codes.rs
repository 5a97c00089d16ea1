//! A code: its rows, its limits and what can be done with it as a whole.

use crate::bits::Bits;
use crate::half::Row;
use crate::linear::Span;
use crate::random::Random;
use std::collections::BTreeSet;

pub const QUBITS: usize = 1024;
pub const ROWS: usize = 512;
pub const WEIGHT: usize = 16;

#[derive(Clone, PartialEq, Eq, Debug)]
pub struct Code {
    pub n: usize,
    pub x: Vec<Row>,
    pub z: Vec<Row>,
}

/// The span of rows on n qubits.
pub fn span(n: usize, rows: &[Row]) -> Span {
    Span::of(n, rows.iter().map(|row| set(n, row)))
}

pub fn rank(n: usize, rows: &[Row]) -> usize {
    span(n, rows).rank()
}

/// The number of rows without repeated ones.
pub fn distinct(rows: &[Row]) -> usize {
    rows.iter().collect::<BTreeSet<&Row>>().len()
}

pub fn set(n: usize, row: &[usize]) -> Bits {
    Bits::of(n, row.iter().copied())
}

impl Code {
    pub fn new(n: usize) -> Code {
        let (x, z) = (Vec::new(), Vec::new());
        Code { n, x, z }
    }

    /// Whether every X row shares an even number of qubits with every Z row.
    pub fn commutes(&self) -> bool {
        let z: Vec<Bits> = self.z.iter().map(|row| set(self.n, row)).collect();
        let even = |x: &Row| z.iter().all(|z| !odd(x, z));
        self.x.iter().all(even)
    }

    pub fn legal(&self) -> bool {
        let mut rows = self.x.iter().chain(&self.z);
        (1..=QUBITS).contains(&self.n)
            && self.x.len().max(self.z.len()) <= ROWS
            && rows.all(|row| fair(row) && row.iter().all(|&qubit| qubit < self.n))
            && self.commutes()
    }

    /// The number of logical qubits.
    pub fn k(&self) -> usize {
        self.n - rank(self.n, &self.x) - rank(self.n, &self.z)
    }

    /// The same code with qubits renamed and rows in another order.
    pub fn mixed(mut self, random: &mut Random) -> Code {
        let names = random.order(self.n);
        for rows in [&mut self.x, &mut self.z] {
            for row in rows.iter_mut() {
                row.iter_mut().for_each(|qubit| *qubit = names[*qubit]);
                row.sort();
            }
            random.shuffle(rows);
        }
        self
    }

    /// X and Z exchanged.
    pub fn turned(self) -> Code {
        let (n, x, z) = (self.n, self.z, self.x);
        Code { n, x, z }
    }

    /// Another code's qubits and rows beside this one's.
    pub fn join(&mut self, other: &Code) {
        let moved = |row: &Row| row.iter().map(|qubit| qubit + self.n).collect();
        self.x.extend(other.x.iter().map(moved));
        self.z.extend(other.z.iter().map(moved));
        self.n += other.n;
    }
}

/// Whether a row has an allowed weight and ascends strictly.
pub fn fair(row: &Row) -> bool {
    (1..=WEIGHT).contains(&row.len()) && row.windows(2).all(|pair| pair[0] < pair[1])
}

/// Whether a row fires on an error.
pub fn odd(row: &Row, error: &Bits) -> bool {
    row.iter().filter(|&&qubit| error.get(qubit)).count() % 2 == 1
}
