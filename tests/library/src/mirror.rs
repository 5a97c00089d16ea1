//! What the model makes of each call: the reply, and the lists of code, shot and reports by
//! docs/LISTS.md.

use crate::lengths::{Lengths, HELD, SHOT, WINDOW};
use crate::report::half;
use crate::reports::{self, Reports};
use judge::compared::Compared;
use judge::half::Report;
use judge::machine;
use judge::shot::Decode;
use judge::stream::{Answer, Model, LOGICAL};
use judge::wrong::Wrong;
use rack::raw::{answer, phase, Reply, State};

/// Where `shot` has the rows' elements, and what these are; 0 of a row that was read and is zero.
const ROWS: usize = 1024;
const LIT: u8 = 1;
const UNREAD: u8 = 2;

/// Where `ends` has a qubit's elements: how many rows are on it, up to one more than have a place, then these rows.
fn slot(qubit: usize) -> usize {
    ROWS + (PLACES + 1) * qubit
}

const PLACES: usize = 14;

/// A decode that is carried out, and the reports of its halves.
pub type Decoded = (Decode, [Report; 2]);

pub struct Mirror {
    model: Model,
    /// The bytes of `flat`, `ends`, `shot` and `window`.
    pub held: [Vec<u8>; HELD],
    /// The sizes announced and the rows taken so far.
    code: State,
    /// Whether `shot` still holds an earlier one.
    stale: bool,
    pub reports: Reports,
    /// What records of kind 8 met, since the first start.
    pub compared: Compared,
}

/// What the header says of a reply: of a state its phase, the code where there is one, and the
/// reports.
pub fn told(mut reply: Reply) -> Reply {
    let State { phase, n, x, z, rows, reports, .. } = reply.state;
    let code = State { n, x, z, rows, ..State::default() };
    let code = if phase == phase::EMPTY { State::default() } else { code };
    reply.state = State { phase, reports, ..code };
    reply
}

impl Mirror {
    /// A fresh start on these lists.
    pub fn new(held: &[Vec<u8>; HELD]) -> Mirror {
        let (model, held) = (Model::new(Wrong::Nothing), held.clone());
        let (compared, reports) = (Compared::default(), Reports::default());
        Mirror { model, held, code: State::default(), stale: true, reports, compared }
    }

    /// Another fresh start.
    pub fn begin(&mut self, held: &[Vec<u8>; HELD]) {
        let compared = std::mem::take(&mut self.compared);
        *self = Mirror { compared, ..Mirror::new(held) };
    }

    /// What a call hands back, and what a decode works on.
    pub fn step(&mut self, record: &[u8], lengths: &Lengths) -> (Reply, Option<Decoded>) {
        let mut reply = Reply::default();
        let mut decoded = None;
        match self.compared.step(&mut self.model, record, lengths.lent()) {
            Answer::Refused { number, kind } => {
                self.stale |= kind == 5 && !matches!(number, 2 | 7);
                (reply.answer, reply.refusal) = (answer::REFUSED, number.into());
            }
            Answer::Taken => self.carry_out(record),
            Answer::Complete(_) => {
                self.carry_out(record);
                reply.answer = answer::COMPLETE;
            }
            Answer::Decode(decode) => {
                self.carry_out(record);
                let reports = decode.halves().map(|half| machine::decode(&half, decode.asked));
                reply.answer = answer::DECODED;
                [reply.x, reply.z] = [half(&reports[0]), half(&reports[1])];
                reports::put(&mut self.held[WINDOW], self.reports.number(), &reply);
                decoded = Some((decode, reports));
            }
        }
        self.reports.take(record, &reply);
        reply.state = State { phase: self.phase(), reports: self.reports.number(), ..self.code };
        (told(reply), decoded)
    }

    fn phase(&self) -> u8 {
        match (self.model.code(), self.model.awaited()) {
            (Some(_), _) => phase::READY,
            (None, Some(_)) => phase::LOADING,
            (None, None) => phase::EMPTY,
        }
    }

    /// A record that is not refused. Lists hold numbers as records do, the low byte first.
    fn carry_out(&mut self, record: &[u8]) {
        let number = |at: usize| u16::from_le_bytes([record[at], record[at + 1]]);
        match record[0] {
            1 => {
                let [n, x, z] = [1, 3, 5].map(number);
                self.code = State { n, x, z, ..State::default() };
                self.stale = true;
            }
            2 => self.begun()[usize::from(number(1))] = 1,
            kind @ (3 | 4 | 6 | 7) => {
                let first = if matches!(kind, 3 | 6) { self.code.x } else { 0 };
                let place = ROWS + usize::from(first + number(1));
                self.begun()[place] = if matches!(kind, 3 | 4) { LIT } else { UNREAD };
            }
            5 => {
                self.begun();
                self.stale = true;
            }
            LOGICAL => {}
            _ => self.row(&record[1..]),
        }
    }

    /// The shot's list with nothing of an earlier one.
    fn begun(&mut self) -> &mut [u8] {
        let shot = &mut self.held[SHOT];
        if self.stale {
            shot[..self.code.n.into()].fill(0);
            shot[ROWS..][..usize::from(self.code.x + self.code.z)].fill(0);
            self.stale = false;
        }
        shot
    }

    /// The row after those before it, and among the rows on each of its qubits. The first row finds
    /// none on any qubit.
    fn row(&mut self, qubits: &[u8]) {
        let State { n, rows, .. } = self.code;
        let [flat, ends, ..] = &mut self.held;
        let start = if rows == 0 { 0 } else { element(ends, usize::from(rows) - 1) };
        let end = start + qubits.len() as u16 / 2;
        put(ends, rows.into(), end);
        flat[2 * usize::from(start)..2 * usize::from(end)].copy_from_slice(qubits);
        if rows == 0 {
            (0..n.into()).for_each(|qubit| put(ends, slot(qubit), 0));
        }
        for at in 0..qubits.len() / 2 {
            note(ends, element(qubits, at).into(), rows);
        }
        self.code.rows += 1;
    }
}

/// A row among the rows on a qubit, if it has a place; one more than have a place stands for any more.
fn note(ends: &mut [u8], qubit: usize, row: u16) {
    let number = usize::from(element(ends, slot(qubit)));
    if number < PLACES {
        put(ends, slot(qubit) + 1 + number, row);
    }
    put(ends, slot(qubit), (number.min(PLACES) + 1) as u16);
}

fn element(list: &[u8], at: usize) -> u16 {
    u16::from_le_bytes([list[2 * at], list[2 * at + 1]])
}

fn put(list: &mut [u8], at: usize, number: u16) {
    list[2 * at..][..2].copy_from_slice(&number.to_le_bytes());
}
