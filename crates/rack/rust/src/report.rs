//! What a record is answered, and the last answers counted.

use crate::lent::{self, Shown};
use crate::raw::{self, most, HalfCounts};
use crate::{Error, Mark, Refusal, Word};

/// The answer to a record that is carried out.
#[derive(Clone, Copy, PartialEq, Eq, Debug)]
pub enum Answer<'a> {
    Taken,
    /// The last row announced is in.
    Complete(Sizes),
    Decoded(Report<'a>),
}

/// A code's qubits, X rows and Z rows.
#[derive(Clone, Copy, PartialEq, Eq, Debug)]
pub struct Sizes {
    pub n: u16,
    pub x: u16,
    pub z: u16,
}

/// What a decode tells of its two halves. The X half holds X errors, found from the Z rows.
#[derive(Clone, Copy, PartialEq, Eq, Debug)]
pub struct Report<'a> {
    pub x: Half<'a>,
    pub z: Half<'a>,
}

/// A half's word and counts, and its lists, which have an element for each qubit, forms four.
#[derive(Clone, Copy, PartialEq, Eq, Debug)]
pub struct Half<'a> {
    pub word: Word,
    pub fixed: u16,
    pub turns: u16,
    pub guesses: u16,
    pub live: u16,
    /// Numbers of marks; `mark` has their names.
    pub marks: &'a [u8],
    /// Four words a qubit: bit k of a qubit's form is bit k % 64 of word k / 64. Of a settled qubit
    /// bit 0 is the constant, bit k the k-th live guess; of any other all are 0.
    pub forms: &'a [u64],
    /// 1 for each qubit to flip, else 0; of a half that is not finished 0.
    pub correction: &'a [u8],
    /// The code's qubits.
    n: u16,
}

impl<'a> Half<'a> {
    /// A half's numbers beside its lists, which have an element for each of n qubits, forms four.
    pub(crate) fn new(
        half: raw::Half,
        n: u16,
        lists: [&'a [u8]; 2],
        forms: &'a [u64],
    ) -> Result<Self, Error> {
        let raw::Half { word, fixed, turns, guesses, live } = half;
        let [marks, correction] = lists;
        let word = Word::try_from(word)?;
        Ok(Half { word, fixed, turns, guesses, live, marks, forms, correction, n })
    }

    pub fn finished(&self) -> bool {
        matches!(self.word, Word::Certain | Word::Unsure)
    }

    /// The qubits to flip, ascending; nothing of a half that is not finished, which names none.
    pub fn flips(&self) -> Option<Vec<usize>> {
        let flipped = |&qubit: &usize| self.correction[qubit] == 1;
        self.finished().then(|| (0..self.correction.len()).filter(flipped).collect())
    }

    /// The four words of a qubit's form.
    pub fn form(&self, qubit: usize) -> &'a [u64] {
        &self.forms[4 * qubit..][..4]
    }

    /// What became of a qubit of the code.
    pub fn mark(&self, qubit: usize) -> Result<Mark, Error> {
        Mark::try_from(self.marks[qubit])
    }

    /// How many classes of errors fit, each with a candidate; nothing of a half that is not
    /// finished or has more than `most::LIVE` live guesses, whose candidates are not shown.
    pub fn candidates(&self) -> Option<u64> {
        let shown = self.finished() && usize::from(self.live) <= most::LIVE;
        shown.then(|| 1 << self.live)
    }

    /// A candidate into the list's first elements, 1 for each qubit to flip, else 0; what is past
    /// the code's qubits stays. It is what the forms give with live guess i set to bit i - 1 of the
    /// number. Every error that fits differs by a product of rows of the other kind from exactly one
    /// of the candidates 0 to `candidates` - 1; candidate 0 is the correction.
    ///
    /// Where it is refused nothing is written: `Refusal::Short` for a list with fewer elements than
    /// the code has qubits, `Refusal::Unfinished` for a half that is not finished, `Refusal::Many`
    /// for more than `most::LIVE` live guesses or a number that no candidate has.
    pub fn candidate(&self, number: u64, candidate: &mut [u8]) -> Result<(), Error> {
        let Half { n, live, marks, forms, .. } = *self;
        let half = Shown { n, word: self.word.number(), live, marks, forms };
        // Only a rack makes a half, and `Rack::new` compared the versions.
        match unsafe { lent::candidate(half, number, candidate) } {
            0 => Ok(()),
            refusal => Err(Error::Refused(Refusal::try_from(refusal)?)),
        }
    }
}

/// The last reports counted, by half.
#[derive(Clone, Copy, PartialEq, Eq, Debug)]
pub struct Counts {
    pub x: HalfCounts,
    pub z: HalfCounts,
}

impl Counts {
    pub(crate) fn new(counts: raw::Counts) -> Result<Counts, Error> {
        let raw::Counts { refusal, x, z } = counts;
        match refusal {
            0 => Ok(Counts { x, z }),
            refusal => Err(Error::Refused(Refusal::try_from(refusal as u16)?)),
        }
    }
}

impl HalfCounts {
    /// How many of the reports had a word.
    pub fn said(&self, word: Word) -> u32 {
        match word {
            Word::Certain => self.certain,
            Word::Unsure => self.unsure,
            Word::None => self.none,
            Word::Spent => self.spent,
            Word::Stopped => self.stopped,
        }
    }
}
