//! Request f: candidates, which show each class of errors that fit once.

use crate::bits::Bits;
use crate::codes::span;
use crate::form::{Form, BITS, WORDS};
use crate::half::{mark, Half, Report, Row, Word};
use crate::judge::{ensure, fits, verdict, Judged, Verdict};
use crate::literal;
use crate::wrong::Wrong;
use std::collections::BTreeSet;

/// The most live guesses of a half whose candidates are shown.
pub const MOST_LIVE: usize = 8;

/// A candidate, or the number of its refusal.
pub type Shown = Result<Vec<u8>, u8>;

/// What a candidate is made from, its number, and the length of the list that it is put to.
#[derive(Clone)]
pub struct Ask {
    pub n: usize,
    /// Nothing where a number is no word's.
    pub word: Option<Word>,
    pub live: usize,
    pub marks: Vec<u8>,
    pub forms: Vec<u64>,
    pub number: u64,
    pub room: usize,
}

impl Ask {
    /// Candidate 0 of a half, the lists as short as they may be.
    pub fn of(report: &Report) -> Ask {
        let (n, word, live) = (report.marks.len(), Some(report.word), report.counts.live);
        let forms = report.forms.iter().flat_map(|form| form.0).collect();
        Ask { n, word, live, marks: report.marks.clone(), forms, number: 0, room: n }
    }

    /// All candidates by number, of a half that is finished and has few enough live guesses.
    pub fn all(&self) -> impl Iterator<Item = Ask> + '_ {
        let shown = self.word.is_some_and(Word::finished) && self.live <= MOST_LIVE;
        let end = if shown { 1 << self.live } else { 0 };
        (0..end).map(|number| Ask { number, ..self.clone() })
    }

    pub fn answer(&self) -> Shown {
        self.answer_by(Wrong::Nothing)
    }

    pub fn answer_by(&self, wrong: Wrong) -> Shown {
        let order = match wrong {
            Wrong::UnfinishedFirst => [15, 12, 16],
            Wrong::ManyFirst => [12, 16, 15],
            _ => [12, 15, 16],
        };
        let refusal = order.into_iter().find(|number| match number {
            12 => self.short(wrong),
            15 => self.unfinished(wrong),
            _ => self.many(wrong),
        });
        match refusal {
            Some(number) => Err(number),
            None => Ok((0..self.n).map(|qubit| self.element(qubit, wrong)).collect()),
        }
    }

    fn short(&self, wrong: Wrong) -> bool {
        let words = if wrong == Wrong::FormsOfOneWord { 1 } else { WORDS };
        self.room.min(self.marks.len()) < self.n || self.forms.len() < words * self.n
    }

    fn unfinished(&self, wrong: Wrong) -> bool {
        let shown = match wrong {
            Wrong::WordUnseen => true,
            Wrong::CertainUnshown => self.word == Some(Word::Unsure),
            _ => self.word.is_some_and(Word::finished),
        };
        let seen = match wrong {
            Wrong::MarksUnseen => 0,
            Wrong::LastMarkUnseen => self.n.saturating_sub(1),
            Wrong::MarksPastSeen => self.marks.len(),
            _ => self.n,
        };
        !shown || self.marks.iter().take(seen).any(|&mark| mark == mark::OPEN)
    }

    fn many(&self, wrong: Wrong) -> bool {
        let most = match wrong {
            Wrong::NineLive => MOST_LIVE + 1,
            Wrong::AnyLive => usize::MAX,
            _ => MOST_LIVE,
        };
        let past = |end: u64| match wrong {
            Wrong::EndTaken => self.number > end,
            Wrong::NumberUnseen => false,
            _ => self.number >= end,
        };
        self.live > most || 1u64.checked_shl(self.live as u32).is_some_and(past)
    }

    /// Bit 0 of a qubit's form plus those bits whose guess is set, modulo 2.
    fn element(&self, qubit: usize, wrong: Wrong) -> u8 {
        let first = if wrong == Wrong::FormsByQubit { qubit } else { WORDS * qubit };
        // Words are missing only where a wrong rule takes short forms.
        let word = |at: usize| self.forms.get(first + at).copied().unwrap_or(0);
        let form = Form(std::array::from_fn(word));
        let guesses = (1..BITS).take_while(|&guess| guess <= self.live);
        let ones = guesses.filter(|&guess| form.get(guess) && self.sets(guess, wrong)).count();
        let constant = usize::from(form.get(0) && wrong != Wrong::ConstantForgotten);
        ((constant + ones) % 2) as u8
    }

    /// Whether a live guess is set.
    fn sets(&self, guess: usize, wrong: Wrong) -> bool {
        let bit = match wrong {
            Wrong::NextBit => guess,
            Wrong::NewestFirst => self.live - guess,
            _ => guess - 1,
        };
        self.number.checked_shr(bit as u32).is_some_and(|rest| rest & 1 == 1)
    }
}

impl Verdict {
    /// Judges all candidates of a finished half: as many as there are classes, the first of them the
    /// correction, each an error that fits, no two of one class. Of a small half every error that
    /// fits is tried, too.
    pub fn candidates(&self, half: &Half, correction: &[u8], all: &[Vec<u8>]) -> Judged {
        let many = 1usize.checked_shl(self.classes as u32) == Some(all.len());
        ensure(many, || format!("{} candidates of 2^{} classes", all.len(), self.classes))?;
        ensure(all[0] == correction, || "candidate 0 is not the correction".into())?;
        let whole = |candidate: &Vec<u8>| {
            candidate.len() == half.n && candidate.iter().all(|&element| element <= 1)
        };
        ensure(all.iter().all(whole), || "a candidate has other elements".into())?;
        let errors: Vec<Bits> = all.iter().map(|candidate| error(candidate)).collect();
        let products = span(half.n, half.other);
        let mut classes = BTreeSet::new();
        for (number, error) in errors.iter().enumerate() {
            ensure(fits(half, error), || format!("candidate {number} does not fit"))?;
            let class: Row = products.rest(error.clone()).ones();
            ensure(classes.insert(class), || format!("the class of candidate {number} again"))?;
        }
        let once = !literal::small(half) || literal::once(half, &errors);
        ensure(once, || "an error that fits is not of one candidate's class".into())
    }
}

/// The judgement of a half's candidates by a wrong rule, where they are shown.
pub fn judged(wrong: Wrong, half: &Half, report: &Report) -> Option<Judged> {
    let all: Result<Vec<_>, u8> = Ask::of(report).all().map(|ask| ask.answer_by(wrong)).collect();
    match all {
        Ok(all) if all.is_empty() => None,
        Ok(all) => Some(verdict(half).candidates(half, &report.correction, &all)),
        Err(number) => Some(Err(format!("a candidate is refused with {number}"))),
    }
}

/// The set of qubits that have 1.
fn error(candidate: &[u8]) -> Bits {
    let ones = (0..candidate.len()).filter(|&qubit| candidate[qubit] == 1);
    Bits::of(candidate.len(), ones)
}
