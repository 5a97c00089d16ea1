//! Random record streams from one fresh start, refusals among them.

use crate::codes::Code;
use crate::families::Family;
use crate::half::Asked;
use crate::losses;
use crate::random::Random;
use crate::records;
use crate::shot::{size, KINDS};
use crate::strays::{bad_sizes, ending, malformed, miscounted, row, stray};
use crate::stream::{Lent, Model, Record, X_ROW, Z_ROW};
use crate::wrong::Wrong;

#[derive(Clone, Copy)]
pub struct Mix {
    /// The chance in percent that a load or a shot is disturbed.
    pub trouble: usize,
    /// Whether records that no program can split may stand anywhere.
    pub wild: bool,
    pub family: Option<Family>,
}

/// Records with at least so many decodes of a complete code.
pub fn records(random: &mut Random, shots: usize, mix: Mix) -> Vec<Record> {
    let model = Model::new(Wrong::Nothing);
    let mut maker = Maker { random, mix, model, records: Vec::new(), shots: 0 };
    while maker.shots < shots {
        if maker.trouble() {
            maker.noise();
        }
        maker.episode(shots);
    }
    if maker.trouble() && !mix.wild {
        let stray = stray(maker.random, &maker.model);
        let last = ending(maker.random, stray);
        maker.records.push(last);
    }
    maker.records
}

struct Maker<'a> {
    random: &'a mut Random,
    mix: Mix,
    /// Tells what the records so far have left.
    model: Model,
    records: Vec<Record>,
    shots: usize,
}

impl Maker<'_> {
    fn trouble(&mut self) -> bool {
        self.random.percent(self.mix.trouble)
    }

    fn push(&mut self, record: Record) {
        if record[0] == 5 && self.model.code().is_some() {
            self.shots += 1;
        }
        if self.mix.wild && self.random.percent(self.mix.trouble / 5) {
            let stray = stray(self.random, &self.model);
            let malformed = malformed(self.random, stray);
            self.model.step(&malformed, Lent::AMPLE);
            self.records.push(malformed);
        }
        self.model.step(&record, Lent::AMPLE);
        self.records.push(record);
    }

    /// Pushes all, or a few more than those up to a dropped code.
    fn push_all(&mut self, records: Vec<Record>) {
        let mut bare = 0;
        for record in records {
            self.push(record);
            if self.model.code().is_none() && self.model.awaited().is_none() {
                bare += 1;
            }
            if bare > 3 {
                return;
            }
        }
    }

    /// A code and some shots of it.
    fn episode(&mut self, shots: usize) {
        use Family::*;
        #[rustfmt::skip]
        const OFTEN: [Family; 16] = [
            Bench, Pair, Pair, Pair, Pair, Pair, Single, Surface, Surface, Toric, Product, Product,
            Bicycle, Joined, Joined, Late,
        ];
        let drawn = self.random.pick(&OFTEN);
        let code = self.mix.family.unwrap_or(drawn).draw(self.random);
        let mut load = records::load(&code);
        if self.trouble() {
            self.disturb_load(&code, &mut load);
        }
        self.push_all(load);
        let Some(code) = self.model.code().cloned() else { return };
        let k = code.k();
        if self.random.percent(40) {
            let sent = if self.trouble() { miscounted(self.random, &code) } else { k };
            self.push(records::logical(sent));
        }
        for _ in 0..self.random.within(1, 16) {
            let Some(code) = self.model.code().cloned() else { return };
            if self.shots >= shots {
                return;
            }
            self.shot(&code, k);
        }
    }

    /// A shot of a code of k logical qubits, which are sometimes compared.
    fn shot(&mut self, code: &Code, k: usize) {
        let shot = losses::shot(self.random, code);
        let mut asked = losses::asked(self.random, code, &shot);
        let mut made = records::shot(&shot);
        if self.random.percent(50) {
            self.random.shuffle(&mut made);
        }
        let plain = made.clone();
        made.push(records::decode(asked));
        if self.random.percent(10) {
            let at = self.random.within(0, made.len());
            made.insert(at, records::logical(k));
        }
        while self.trouble() {
            self.disturb_shot(code, k, &mut made);
        }
        self.push_all(made);
        if self.random.percent(15) {
            asked.budget = self.random.within(asked.budget, Asked::AMPLE.budget);
            asked.limit = self.random.within(asked.limit, Asked::AMPLE.limit);
            self.push_all([plain, vec![records::decode(asked)]].concat());
        }
    }

    fn disturb_load(&mut self, code: &Code, load: &mut Vec<Record>) {
        let at = self.random.below(load.len());
        let kind = self.random.pick(&[X_ROW, Z_ROW]);
        match self.random.below(6) {
            0 => load.insert(at, bad_sizes(self.random)),
            1 => load.insert(at, row(self.random, kind, code.n)),
            2 => load.insert(at, stray(self.random, &self.model)),
            3 => *load = records::load(&self.bent(code)),
            4 => load.insert(at, records::logical(code.k())),
            _ => {
                let other = self.random.below(load.len());
                load.swap(at, other);
            }
        }
    }

    /// The code with one row changed: other qubits, out of range or of order.
    fn bent(&mut self, code: &Code) -> Code {
        let mut bent = code.clone();
        let rows = if self.random.percent(50) { &mut bent.x } else { &mut bent.z };
        if rows.is_empty() {
            return bent;
        }
        let at = self.random.below(rows.len());
        let row = &mut rows[at];
        let place = self.random.below(row.len());
        match self.random.below(4) {
            0 => row[place] = code.n + self.random.below(3),
            1 => row.reverse(),
            2 => row[place] = row[0],
            _ => row[place] = self.random.below(code.n),
        }
        if self.random.percent(50) {
            row.sort();
        }
        bent
    }

    fn disturb_shot(&mut self, code: &Code, k: usize, made: &mut Vec<Record>) {
        let kind = self.random.pick(&KINDS);
        let past = size(code, kind) + self.random.pick(&[0, 1, 2, 300]);
        let budget = self.random.pick(&[1, 63, 64, 65, 128, 255]);
        let again = made[self.random.below(made.len())].clone();
        let disturbing = match self.random.below(15) {
            0..=2 => records::number(kind, past),
            3..=4 => again,
            5..=7 => self.otherwise(made).unwrap_or(again),
            8..=9 => records::decode(Asked { budget, limit: 9 }),
            10 => row(self.random, X_ROW, code.n),
            11 => records::logical(miscounted(self.random, code)),
            12..=13 => records::logical(k),
            _ => bad_sizes(self.random),
        };
        let at = self.random.within(0, made.len());
        made.insert(at, disturbing);
    }

    /// The number of a lit or unread row again, lit or unread and of either kind.
    fn otherwise(&mut self, made: &[Record]) -> Option<Record> {
        let mut rows = made.iter().filter(|record| matches!(record[0], 3 | 4 | 6 | 7));
        let count = rows.clone().count();
        let row = rows.nth(self.random.below(count.max(1)))?;
        let kind = self.random.pick(&[3, 4, 6, 7]);
        Some([&[kind], &row[1..]].concat())
    }

    /// Records of all kinds for tiny codes.
    fn noise(&mut self) {
        for _ in 0..self.random.within(10, 60) {
            let stray = stray(self.random, &self.model);
            self.push(stray);
        }
    }
}
