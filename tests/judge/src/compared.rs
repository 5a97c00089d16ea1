//! What the records of kind 8 in a stream meet.

use crate::codes::{distinct, rank, Code};
use crate::half::Row;
use crate::stream::{Answer, Lent, Model, LOGICAL};

#[derive(Default)]
pub struct Compared {
    /// Whether the last record was a decode that was carried out.
    decoded: bool,
    /// Whether an agreeing record came after a loss of this shot.
    agreed: bool,
    /// Agreeing records in an open shot with losses, in a spoiled one, and directly after a decode.
    open: usize,
    spoiled: usize,
    stale: usize,
    /// Agreeing records on codes with repeated rows, and with dependent rows of which none is repeated.
    repeated: usize,
    dependent: usize,
    /// Decodes of shots with an agreeing record after a loss.
    decodes: usize,
    /// Refusals 17 of one qubit more, one less, and n less all rows.
    more: usize,
    less: usize,
    all_rows: usize,
}

impl Compared {
    /// Has the model take a record, and counts what it meets.
    pub fn step(&mut self, model: &mut Model, record: &[u8], lent: Lent) -> Answer {
        let code = model.code().cloned();
        let shot = model.shot().map(|(shot, spoiled)| (!shot.sets[0].is_empty(), spoiled));
        let answer = model.step(record, lent);
        match (&answer, code, shot) {
            (Answer::Taken, Some(code), Some((lost, spoiled))) if record[0] == LOGICAL => {
                self.agree(&code, lost, spoiled);
            }
            (Answer::Refused { number: 17, .. }, Some(code), _) => {
                self.differ(&code, i32::from(u16::from_le_bytes([record[1], record[2]])));
            }
            (Answer::Decode(_), ..) => {
                self.decodes += usize::from(self.agreed);
                self.agreed = false;
            }
            (Answer::Complete(_) | Answer::Refused { kind: 5, .. }, ..) => self.agreed = false,
            _ => {}
        }
        self.decoded = matches!(answer, Answer::Decode(_));
        answer
    }

    fn agree(&mut self, code: &Code, lost: bool, spoiled: bool) {
        let rows = [&code.x, &code.z];
        let repeated = rows.iter().any(|rows| distinct(rows) < rows.len());
        let dependent = |rows: &&Vec<Row>| rank(code.n, rows) < rows.len();
        self.agreed |= lost && !spoiled;
        self.open += usize::from(lost && !spoiled);
        self.spoiled += usize::from(spoiled);
        self.stale += usize::from(self.decoded);
        self.repeated += usize::from(repeated);
        self.dependent += usize::from(!repeated && rows.iter().any(dependent));
    }

    fn differ(&mut self, code: &Code, sent: i32) {
        let [n, k, rows] = [code.n, code.k(), code.x.len() + code.z.len()].map(|size| size as i32);
        self.more += usize::from(sent == k + 1);
        self.less += usize::from(sent == k - 1);
        self.all_rows += usize::from(sent == n - rows);
    }

    /// How often each was met.
    pub fn counts(&self) -> [(&'static str, usize); 9] {
        [
            ("agreeing in an open shot with losses", self.open),
            ("agreeing in a spoiled shot", self.spoiled),
            ("agreeing directly after a decode", self.stale),
            ("agreeing on a code with repeated rows", self.repeated),
            ("agreeing on a code with dependent rows, none repeated", self.dependent),
            ("a decode after an agreeing one in its shot", self.decodes),
            ("17 for one qubit more", self.more),
            ("17 for one qubit less", self.less),
            ("17 for n less all rows, dependent ones too", self.all_rows),
        ]
    }
}
