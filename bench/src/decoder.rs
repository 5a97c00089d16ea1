//! The elimination decoder of a stream. It takes the library's records, but trusts them.

use crate::eliminate::{Found, Half, Shot};
use crate::matrix::Matrix;
use judge::codes::Code;
use judge::half::Row;
use judge::stream::{LOGICAL, X_ROW};

pub struct Decoder {
    pub code: Code,
    /// What the last decode found out about the X half and the Z half.
    pub found: [Found; 2],
    /// The rows announced.
    rows: usize,
    halves: Vec<Half>,
    lost: Vec<u16>,
    /// The lit Z rows and the lit X rows.
    lit: [Vec<u16>; 2],
    /// The unread Z rows and the unread X rows.
    unread: [Vec<u16>; 2],
    matrix: Matrix,
}

pub enum Answer {
    Taken,
    Complete,
    Decoded,
}

fn number(bytes: &[u8]) -> u16 {
    u16::from_le_bytes([bytes[0], bytes[1]])
}

impl Decoder {
    pub fn new() -> Decoder {
        Decoder {
            code: Code::new(0),
            found: Default::default(),
            rows: 0,
            halves: Vec::new(),
            lost: Vec::new(),
            lit: Default::default(),
            unread: Default::default(),
            matrix: Matrix::default(),
        }
    }

    pub fn take(&mut self, record: &[u8]) -> Answer {
        let (kind, body) = (record[0], &record[1..]);
        match kind {
            1 => return self.take_sizes([0, 2, 4].map(|at| number(&body[at..]).into())),
            2 => self.lost.push(number(body)),
            3 | 4 => self.lit[usize::from(kind - 3)].push(number(body)),
            5 => return self.decode(),
            6 | 7 => self.unread[usize::from(kind - 6)].push(number(body)),
            LOGICAL => {} // trusted too
            _ => {
                let row = body.chunks_exact(2).map(|pair| number(pair).into());
                return self.take_row(kind & X_ROW != 0, row.collect());
            }
        }
        Answer::Taken
    }

    fn take_sizes(&mut self, [n, x, z]: [usize; 3]) -> Answer {
        self.code = Code::new(n);
        self.rows = x + z;
        self.complete()
    }

    fn take_row(&mut self, x_kind: bool, row: Row) -> Answer {
        let rows = if x_kind { &mut self.code.x } else { &mut self.code.z };
        rows.push(row);
        self.complete()
    }

    fn complete(&mut self) -> Answer {
        let Code { n, x, z } = &self.code;
        if x.len() + z.len() < self.rows {
            return Answer::Taken;
        }
        self.halves = vec![Half::new(*n, z, x), Half::new(*n, x, z)];
        self.lost.clear();
        self.lit.iter_mut().chain(&mut self.unread).for_each(Vec::clear);
        Answer::Complete
    }

    fn decode(&mut self) -> Answer {
        self.lost.sort_unstable_by(|a, b| b.cmp(a));
        for (at, half) in self.halves.iter().enumerate() {
            let shot = Shot { lost: &self.lost, lit: &self.lit[at], unread: &self.unread[at] };
            half.decode(&shot, &mut self.matrix, &mut self.found[at]);
            self.lit[at].clear();
            self.unread[at].clear();
        }
        self.lost.clear();
        Answer::Decoded
    }
}
