//! The record protocol: each record's answer and what it leaves.

use crate::codes::{Code, QUBITS, ROWS};
use crate::form::WORDS;
use crate::half::{Asked, Row};
use crate::shot::{size, Decode, Shot, KINDS};
use crate::wrong::Wrong;
use std::rc::Rc;

pub type Record = Vec<u8>;

/// What the caller lends beside the record.
#[derive(Clone, Copy)]
pub struct Lent {
    /// Whether a list of code, shot, reports or work is below its least length.
    pub short: bool,
    /// The length of the shortest of a decode's marks and corrections.
    pub room: usize,
    /// The length of the shorter of its two lists of forms, in words.
    pub forms: usize,
}

impl Lent {
    pub const AMPLE: Lent = Lent { short: false, room: QUBITS, forms: WORDS * QUBITS };
}

pub enum Answer {
    Refused { number: u8, kind: u8 },
    Taken,
    Complete(Rc<Code>),
    Decode(Decode),
}

enum State {
    Bare,
    Loading { code: Code, x: usize, z: usize },
    Ready { code: Rc<Code>, shot: Shot, spoiled: bool },
}

pub struct Model {
    state: State,
    wrong: Wrong,
}

pub const LOGICAL: u8 = 8;
pub const X_ROW: u8 = 32;
pub const Z_ROW: u8 = 64;

/// The length that a kind's body has.
pub fn body(kind: u8) -> Option<usize> {
    match kind {
        1 => Some(6),
        2..=4 | 6..=LOGICAL => Some(2),
        5 => Some(3),
        33..=48 => Some(2 * usize::from(kind - X_ROW)),
        65..=80 => Some(2 * usize::from(kind - Z_ROW)),
        _ => None,
    }
}

/// A row's kind without its weight, 0 for other kinds.
fn row_kind(kind: u8) -> u8 {
    kind & (X_ROW | Z_ROW)
}

fn numbers(bytes: &[u8]) -> Vec<usize> {
    let pairs = bytes.chunks_exact(2);
    pairs.map(|pair| usize::from(u16::from_le_bytes([pair[0], pair[1]]))).collect()
}

fn put(code: &mut Code, kind: u8, row: Row) {
    let rows = if row_kind(kind) == X_ROW { &mut code.x } else { &mut code.z };
    rows.push(row);
}

impl Model {
    pub fn new(wrong: Wrong) -> Model {
        Model { state: State::Bare, wrong }
    }

    /// The complete code.
    pub fn code(&self) -> Option<&Rc<Code>> {
        match &self.state {
            State::Ready { code, .. } => Some(code),
            _ => None,
        }
    }

    /// The shot of the complete code, and whether it is spoiled.
    pub fn shot(&self) -> Option<(&Shot, bool)> {
        match &self.state {
            State::Ready { shot, spoiled, .. } => Some((shot, *spoiled)),
            _ => None,
        }
    }

    /// The loading code's number of qubits and the row kind awaited.
    pub fn awaited(&self) -> Option<(usize, u8)> {
        match &self.state {
            State::Loading { code, x, .. } if code.x.len() < *x => Some((code.n, X_ROW)),
            State::Loading { code, .. } => Some((code.n, Z_ROW)),
            _ => None,
        }
    }

    pub fn step(&mut self, record: &[u8], lent: Lent) -> Answer {
        let mut order = self.wrong.order().into_iter();
        match order.find(|&number| self.applies(number, record, lent)) {
            Some(number) => {
                let kind = record.first().copied().unwrap_or(0);
                self.leave(self.wrong.leaves(number), kind);
                Answer::Refused { number, kind }
            }
            None => self.carry_out(record[0], &record[1..]),
        }
    }

    /// Whether a refusal's number applies where no lower one does.
    fn applies(&self, number: u8, record: &[u8], lent: Lent) -> bool {
        let Some((&kind, bytes)) = record.split_first() else {
            return number == 2;
        };
        let enough = |n: usize| lent.room >= n && lent.forms >= WORDS * n;
        let room = self.code().is_none_or(|code| enough(code.n));
        let short = lent.short || (kind == 5 && !room);
        match (number, kind) {
            (1, _) => self.wrong.body(kind).is_none(),
            (2, _) => self.wrong.body(kind) != Some(bytes.len()),
            (3, 1) => {
                let sizes = numbers(bytes);
                !(1..=QUBITS).contains(&sizes[0]) || sizes[1].max(sizes[2]) > ROWS
            }
            (4, _) if row_kind(kind) != 0 => {
                self.awaited().is_none_or(|(_, awaited)| awaited != row_kind(kind))
            }
            (5, _) if row_kind(kind) != 0 => self.bad_row(&numbers(bytes)),
            (6, _) if row_kind(kind) != 0 => !short && self.clash(kind, numbers(bytes)),
            (7, 2..=LOGICAL) => self.code().is_none() && self.wrong.codeless(kind),
            (8, _) if KINDS.contains(&kind) => !self.there(kind, numbers(bytes)[0]),
            (9, _) if KINDS.contains(&kind) => !short && self.twice(kind, numbers(bytes)[0]),
            (10, 5) => self.wrong.refuses(bytes[0]),
            (11, 5) => matches!(self.state, State::Ready { spoiled: true, .. }),
            (12, _) => short,
            (17, LOGICAL) => self.differs(bytes),
            _ => false,
        }
    }

    fn bad_row(&self, row: &Row) -> bool {
        let n = self.awaited().map_or(QUBITS, |(n, _)| n);
        row.iter().any(|&qubit| qubit >= n) || row.windows(2).any(|pair| pair[0] >= pair[1])
    }

    fn clash(&self, kind: u8, row: Row) -> bool {
        let State::Loading { code, x, z } = &self.state else {
            return false;
        };
        if code.x.len() + code.z.len() + 1 < x + z {
            return false;
        }
        let mut full = code.clone();
        put(&mut full, kind, row);
        self.wrong.clash(&full)
    }

    /// Whether the code has the qubit or row that a kind names.
    fn there(&self, kind: u8, number: usize) -> bool {
        self.code().is_some_and(|code| number < size(code, self.wrong.crossed(kind)))
    }

    /// Whether it is lost, lit or unread already.
    fn twice(&self, kind: u8, number: usize) -> bool {
        let State::Ready { code, shot, .. } = &self.state else {
            unreachable!("refused with 7");
        };
        let mut barred = self.wrong.barred(self.wrong.crossed(kind)).iter();
        barred.any(|&kind| number < size(code, kind) && shot.set(kind).get(number))
    }

    /// Whether the code's rows encode another number of qubits than these bytes say.
    fn differs(&self, bytes: &[u8]) -> bool {
        match &self.state {
            State::Ready { code, shot, .. } => !self.wrong.agrees(code, shot, bytes),
            _ => self.wrong == Wrong::CodelessDiffers,
        }
    }

    /// The last column of the table.
    fn leave(&mut self, number: u8, kind: u8) {
        match (number, &mut self.state) {
            (1 | 2 | 8 | 9, State::Ready { spoiled, .. }) => *spoiled = true,
            (3..=6 | 17, state) => *state = State::Bare,
            (10 | 11, _) => self.end_shot(),
            (12, _) if kind == 5 => self.end_shot(),
            _ => {}
        }
    }

    fn end_shot(&mut self) {
        if let State::Ready { code, shot, spoiled } = &mut self.state {
            let ended = std::mem::replace(shot, Shot::empty(code));
            if self.wrong == Wrong::UnreadKept {
                for kind in [6, 7] {
                    *shot.set_mut(kind) = ended.set(kind).clone();
                }
            }
            *spoiled = false;
        }
    }

    fn carry_out(&mut self, kind: u8, bytes: &[u8]) -> Answer {
        let crossed = self.wrong.crossed(kind);
        match (kind, &mut self.state) {
            (1, state) => {
                let [n, x, z] = numbers(bytes)[..] else {
                    unreachable!("refused with 2");
                };
                *state = State::Loading { code: Code::new(n), x, z };
                self.complete()
            }
            (_, State::Ready { shot, spoiled, .. }) if KINDS.contains(&kind) => {
                if !*spoiled || self.wrong.spoiled_takes(kind) {
                    shot.set_mut(crossed).insert(numbers(bytes)[0]);
                }
                Answer::Taken
            }
            (5, State::Ready { code, shot, .. }) => {
                let budget = usize::from(bytes[0]);
                let limit = numbers(&bytes[1..])[0];
                let (code, shot) = (code.clone(), shot.clone());
                if self.wrong != Wrong::ShotKept {
                    self.end_shot();
                }
                Answer::Decode(Decode { code, shot, asked: Asked { budget, limit } })
            }
            (LOGICAL, State::Ready { code, shot, spoiled }) => {
                if self.wrong == Wrong::AgreedEmpties {
                    *shot = Shot::empty(code);
                }
                *spoiled = self.wrong.spoiled_after_agreeing(*spoiled);
                Answer::Taken
            }
            // Only a wrong rule takes it without a code.
            (LOGICAL, _) => Answer::Taken,
            (_, State::Loading { code, .. }) => {
                put(code, kind, numbers(bytes));
                self.complete()
            }
            _ => unreachable!("refused with 4 or 7"),
        }
    }

    /// Opens an empty shot if the last row announced is in.
    fn complete(&mut self) -> Answer {
        match &self.state {
            State::Loading { code, x, z } if (code.x.len(), code.z.len()) == (*x, *z) => {
                let code = Rc::new(code.clone());
                let shot = Shot::empty(&code);
                self.state = State::Ready { code: code.clone(), shot, spoiled: false };
                Answer::Complete(code)
            }
            _ => Answer::Taken,
        }
    }
}
