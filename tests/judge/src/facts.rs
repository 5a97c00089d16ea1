//! The machine against the judge, and facts about halves, on random codes.

use crate::bench::{self, Bench};
use crate::bits::Bits;
use crate::candidates;
use crate::codes::{rank, Code};
use crate::families::Family;
use crate::half::{Asked, Half, Report, Row, Word};
use crate::judge::{ensure, verdict, Judged};
use crate::literal;
use crate::losses;
use crate::machine;
use crate::random::Random;
use crate::reach::Reach;
use crate::records;
use crate::shot::{Decode, Shot};
use crate::shots::{hexadecimal, lines};
use crate::stream::Record;
use crate::wrong::Wrong;
use std::collections::BTreeMap;
use std::rc::Rc;

/// How often each fact was seen to hold, and the first time it did not.
pub struct Facts {
    rule: Rule,
    reach: Reach,
    groups: BTreeMap<(String, &'static str), (usize, Option<String>)>,
}

impl Facts {
    pub fn new(wrong: Wrong) -> Facts {
        Facts { rule: Rule(wrong), reach: Reach::default(), groups: BTreeMap::new() }
    }

    fn note(&mut self, group: &str, fact: &'static str, holds: Judged, stream: &[Record]) {
        let entry = self.groups.entry((group.into(), fact)).or_default();
        match holds {
            Ok(()) => entry.0 += 1,
            Err(reason) if entry.1.is_none() => {
                entry.1 = Some(format!("{reason}\n{}", hexadecimal(stream)));
            }
            Err(_) => {}
        }
    }

    /// One line a fact; the numbers of facts that hold and that do not.
    pub fn print(&self) -> (usize, usize) {
        for ((group, fact), (times, failure)) in &self.groups {
            match failure {
                None => println!("{group}: {fact} ({times})"),
                Some(failure) => println!("FAILED {group}: {fact}: {failure}"),
            }
        }
        let failed = self.groups.values().filter(|(_, failure)| failure.is_some()).count();
        (self.groups.len() - failed, failed)
    }

    pub fn bench(&mut self) {
        self.shots("document 01's", &bench::document());
        self.shots("with unread rows", &bench::unread());
        self.shots("with logical qubits compared", &bench::logical());
    }

    fn shots(&mut self, which: &'static str, shots: &[Bench]) {
        for bench in shots {
            let printed = lines(&bench.records, self.rule.0);
            for (at, line) in &bench.lines {
                let text = printed.get(*at).map_or("nothing", |line| &line.text);
                let named = || format!("{}: {text}, should be {line}", bench.name);
                self.note("bench shots", which, ensure(text == line, named), &bench.records);
            }
        }
    }

    /// Whether the shots of the families reached all that they should.
    pub fn reached(&mut self) {
        for (what, times) in self.reach.counts() {
            let failure = (times == 0).then(|| "never".into());
            self.groups.insert(("reached".into(), what), (times, failure));
        }
    }

    pub fn family(&mut self, family: Family, random: &mut Random, shots: usize) {
        let mut code = Rc::new(family.draw(random));
        for at in 0..shots {
            if at % 4 == 0 {
                code = Rc::new(family.draw(random));
            }
            let shot = losses::shot(random, &code);
            let asked = losses::asked(random, &code, &shot);
            let decode = Decode { code: code.clone(), shot, asked };
            let stream = records::whole(&decode);
            self.reach.add(&decode);
            let rule = self.rule;
            let mut note = |fact, holds| self.note(family.name(), fact, holds, &stream);
            for half in &decode.halves() {
                tried(half, &mut note);
                rule.judged(half, asked, &mut note);
                rule.candidates(half, asked, &mut note);
                rule.larger(half, asked, random, &mut note);
                rule.fixing_off(half, asked, &mut note);
                rule.left_out(half, asked, &mut note);
            }
            let lost = &decode.shot.sets[0];
            note("live on a set and on its complement", rule.complement(&code, lost));
        }
    }
}

type Note<'a> = dyn FnMut(&'static str, Judged) + 'a;

/// Elimination by other ranks and by trying everything.
fn tried(half: &Half, note: &mut Note) {
    let verdict = verdict(half);
    let off = |row: &Row| row.iter().copied().filter(|&qubit| !half.lost.get(qubit)).collect();
    let kept: Vec<Row> = half.other.iter().map(off).collect();
    let inside = rank(half.n, half.other) - rank(half.n, &kept);
    let count = verdict.fixed.len();
    note("fixed by ranks", ensure(count == inside, || format!("{count} fixed, not {inside}")));
    if literal::few(half.rows) {
        let all = literal::products(half.n, half.rows).len();
        let rank = rank(half.n, half.rows);
        let same = ensure(all == 1 << rank, || format!("{all} products, rank {rank}"));
        note("ranks by products", same);
    }
    if literal::small(half) {
        let fixed = literal::fixed(half);
        let same = ensure(fixed == verdict.fixed, || format!("fixed {fixed:?}"));
        note("fixed by products", same);
        let classes = literal::classes(half);
        let found = verdict.error.map_or(0, |_| 1 << verdict.classes);
        let same = ensure(classes == found, || format!("{classes} classes, not {found}"));
        note("classes by errors", same);
    }
}

/// The turn rules under test, by the wrong one among them.
#[derive(Clone, Copy)]
struct Rule(Wrong);

impl Rule {
    fn decode(self, half: &Half, asked: Asked) -> Report {
        machine::decode_by(self.0, half, asked)
    }

    /// The machine's report by elimination.
    fn judged(self, half: &Half, asked: Asked, note: &mut Note) {
        let verdict = verdict(half);
        let report = self.decode(half, asked);
        note("words, counts and flips", verdict.judge(half, asked, &report.said()));
        note("marks, forms and corrections", verdict.lists(half, &report));
        if report.word.finished() {
            let all = report.counts.turns + report.counts.fixed;
            let holds = ensure(all == verdict.lost, || "turns are not lost less fixed".into());
            note("finished halves' turns", holds);
        }
    }

    /// The candidates that the machine's report shows, by elimination.
    fn candidates(self, half: &Half, asked: Asked, note: &mut Note) {
        if let Some(judged) = candidates::judged(self.0, half, &self.decode(half, asked)) {
            note("each class shown once", judged);
        }
    }

    /// A larger budget and limit leave a half that is finished or none as it is.
    fn larger(self, half: &Half, asked: Asked, random: &mut Random, note: &mut Note) {
        let first = self.decode(half, asked);
        if first.word.finished() || first.word == Word::None {
            let budget = random.within(asked.budget, Asked::AMPLE.budget);
            let limit = random.within(asked.limit, Asked::AMPLE.limit);
            let second = self.decode(half, Asked { budget, limit });
            let holds = ensure(first == second, || format!("{budget} and {limit} change it"));
            note("larger budgets and limits", holds);
        }
    }

    /// Without the other kind's rows nothing is fixed, and nothing else changes.
    fn fixing_off(self, half: &Half, asked: Asked, note: &mut Note) {
        let alone = Half { other: &[], ..*half };
        let same = self.decode(&alone, asked) == machine::decode_by(Wrong::FixNothing, half, asked);
        note("one kind of rows alone", ensure(same, || "more than fixing is off".into()));
        let [with, without] = [half, &alone].map(|half| self.decode(half, Asked::AMPLE));
        if with.word.finished() && without.word.finished() {
            let live = with.counts.live + with.counts.fixed;
            let holds = ensure(without.counts.live == live, || format!("{live} are live alone"));
            note("live without fixing", holds);
        }
    }

    /// A code without the unread rows of the half's own kind gives the same.
    fn left_out(self, half: &Half, asked: Asked, note: &mut Note) {
        if half.unread.is_empty() {
            return;
        }
        let (numbers, rows): (Vec<usize>, Vec<Row>) =
            half.read().map(|(at, row)| (at, row.clone())).unzip();
        let lit = Bits::of(rows.len(), (0..rows.len()).filter(|&at| half.lit.get(numbers[at])));
        let unread = Bits::new(rows.len());
        let without = Half { rows: &rows, lit: &lit, unread: &unread, ..*half };
        let same = self.decode(half, asked) == self.decode(&without, asked);
        note("unread rows left out", ensure(same, || "an unread row has a part".into()));
    }

    /// Live of the X half and live of the Z half on the complement make k.
    fn complement(self, code: &Rc<Code>, lost: &Bits) -> Judged {
        let live = |which: usize, lost: Bits| {
            let mut shot = Shot::empty(code);
            shot.sets[0] = lost;
            let decode = Decode { code: code.clone(), shot, asked: Asked::AMPLE };
            let half = &decode.halves()[which];
            let report = self.decode(half, Asked::AMPLE);
            let classes = verdict(half).classes;
            let agrees = !report.word.finished() || report.counts.live == classes;
            ensure(agrees, || "live is not the dimension".into()).map(|()| classes)
        };
        let mut kept = Bits::of(code.n, 0..code.n);
        kept.add(lost);
        let sum = live(0, lost.clone())? + live(1, kept)?;
        ensure(sum == code.k(), || format!("{sum} live, k is {}", code.k()))
    }
}
