//! Records as bytes.

use crate::raw::{kind, most};

/// One record, made by a function for each kind. A number that two bytes can't hold is written as
/// 65,535: no size, qubit, row or number of logical qubits is, so it is refused, and as a limit it
/// stops no half.
#[derive(Clone, Copy, PartialEq, Eq, Debug)]
pub struct Record {
    length: usize,
    bytes: [u8; 1 + 2 * most::WEIGHT],
}

impl Record {
    /// A code's qubits, X rows and Z rows. All X rows follow, then all Z rows.
    pub fn sizes(n: usize, x: usize, z: usize) -> Record {
        Record::of(kind::SIZES).and(n).and(x).and(z)
    }

    /// A row of 1 to 16 qubits, strictly ascending. For none or more the record has no qubits and a
    /// kind that is not listed: it is refused as unknown.
    pub fn x_row(qubits: &[u16]) -> Record {
        Record::row(kind::X_ROW, qubits)
    }

    /// As `x_row`.
    pub fn z_row(qubits: &[u16]) -> Record {
        Record::row(kind::Z_ROW, qubits)
    }

    /// The code's logical qubits, compared with what its rows encode.
    pub fn logical(k: usize) -> Record {
        Record::of(kind::LOGICAL).and(k)
    }

    pub fn lost(qubit: usize) -> Record {
        Record::of(kind::LOST).and(qubit)
    }

    /// A Z row fired: about the X half.
    pub fn lit_z(row: usize) -> Record {
        Record::of(kind::LIT_Z).and(row)
    }

    /// An X row fired: about the Z half.
    pub fn lit_x(row: usize) -> Record {
        Record::of(kind::LIT_X).and(row)
    }

    /// A Z row could not be read: the X half is found without it. For the Z half it is a row of the
    /// other kind all the same.
    pub fn unread_z(row: usize) -> Record {
        Record::of(kind::UNREAD_Z).and(row)
    }

    /// An X row could not be read: the Z half is found without it. For the X half it is a row of
    /// the other kind all the same.
    pub fn unread_x(row: usize) -> Record {
        Record::of(kind::UNREAD_X).and(row)
    }

    /// A budget that a byte can't hold is written as 255, the largest.
    pub fn decode(budget: usize, limit: usize) -> Record {
        Record::of(kind::DECODE).byte(budget.min(255) as u8).and(limit)
    }

    pub fn bytes(&self) -> &[u8] {
        &self.bytes[..self.length]
    }

    fn of(kind: u8) -> Record {
        Record { length: 0, bytes: [0; 1 + 2 * most::WEIGHT] }.byte(kind)
    }

    fn row(kind: u8, qubits: &[u16]) -> Record {
        if qubits.len() > most::WEIGHT {
            return Record::of(kind);
        }
        let first = Record::of(kind + qubits.len() as u8);
        qubits.iter().fold(first, |record, &qubit| record.and(qubit.into()))
    }

    /// With a number more, the low byte first.
    fn and(self, number: usize) -> Record {
        let [low, high] = (number.min(65_535) as u16).to_le_bytes();
        self.byte(low).byte(high)
    }

    fn byte(mut self, byte: u8) -> Record {
        self.bytes[self.length] = byte;
        self.length += 1;
        self
    }
}
