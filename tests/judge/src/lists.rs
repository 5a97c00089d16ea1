//! Judges a half's three lists: marks that agree with the counts, and demand 3.

use crate::bits::Bits;
use crate::form::Form;
use crate::half::{mark, Counts, Half, Report, Word};
use crate::judge::{ensure, Judged, Verdict};
use crate::linear::Span;

impl Verdict {
    pub fn lists(&self, half: &Half, report: &Report) -> Judged {
        let zero = |list: &[u8]| list.iter().all(|&element| element == 0);
        let Report { word, correction, marks, forms, .. } = report;
        ensure(word.finished() || zero(correction), || "a correction handed out".into())?;
        if *word == Word::None {
            let empty = zero(marks) && forms.iter().all(|&form| form == Form::ZERO);
            return ensure(empty, || "lists not empty after none".into());
        }
        for qubit in 0..half.n {
            self.qubit(half, report, qubit)?;
        }
        let many = |wanted: &[u8]| marks.iter().filter(|m| wanted.contains(m)).count();
        let counted = Counts {
            fixed: many(&[mark::FIXED]),
            turns: many(&[mark::PEELED, mark::GUESSED]),
            guesses: many(&[mark::GUESSED]),
            live: report.counts.live,
        };
        ensure(counted == report.counts, || "marks and counts disagree".into())?;
        let open = marks.contains(&mark::OPEN);
        ensure(open != word.finished(), || "finished and open do not go together".into())?;
        fillings(half, report)
    }

    fn qubit(&self, half: &Half, report: &Report, qubit: usize) -> Judged {
        let (mark, form) = (report.marks[qubit], report.forms[qubit]);
        let fixed = self.fixed.binary_search(&qubit).is_ok();
        let settled = matches!(mark, mark::PEELED | mark::GUESSED);
        let right = match mark {
            mark::NOT_LOST => !half.lost.get(qubit),
            mark::FIXED => fixed,
            mark::PEELED | mark::GUESSED | mark::OPEN => half.lost.get(qubit) && !fixed,
            _ => false,
        };
        let live = form.highest() <= Some(report.counts.live);
        let formed = if settled { live } else { form == Form::ZERO };
        ensure(right && formed, || format!("qubit {qubit}: mark {mark} {form:x?}"))?;
        let constant = u8::from(form.get(0));
        let agrees = !report.word.finished() || report.correction[qubit] == constant;
        ensure(agrees, || format!("qubit {qubit}: correction and form disagree"))
    }
}

/// As the live guesses take all values, the settled qubits take exactly the
/// fillings that satisfy every closed row that was read, each once.
fn fillings(half: &Half, report: &Report) -> Judged {
    let Report { word, counts, marks, forms, .. } = report;
    let is = |qubit: usize, wanted: &[u8]| wanted.contains(&marks[qubit]);
    let mut closed = Vec::new();
    for (at, row) in half.read() {
        let open = row.iter().filter(|&&q| is(q, &[mark::OPEN])).count();
        ensure(open != 1 || *word != Word::Spent, || format!("spent, yet row {at} dangles"))?;
        if open == 0 {
            let lit = if half.lit.get(at) { Form::ONE } else { Form::ZERO };
            let side = row.iter().fold(lit, |sum, &q| sum ^ forms[q]);
            ensure(side == Form::ZERO, || format!("closed row {at} has side {side:x?}"))?;
            let free = row.iter().copied().filter(|&q| is(q, &[mark::PEELED, mark::GUESSED]));
            closed.push(Bits::of(half.n, free));
        }
    }
    let dimension = counts.turns - Span::of(half.n, closed).rank();
    ensure(dimension == counts.live, || format!("fillings have dimension {dimension}"))?;
    let own = |k: &usize| (0..half.n).any(|q| is(q, &[mark::GUESSED]) && forms[q] == Form::bit(*k));
    let each = (1..=counts.live).all(|k| own(&k));
    ensure(each, || "a live guess without a qubit of its own".into())
}
