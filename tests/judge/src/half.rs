//! A half's input and what is said of it.

use crate::bits::Bits;
use crate::form::Form;

pub type Row = Vec<usize>;

/// The rows that errors are found from, the other kind's, and the shot.
pub struct Half<'a> {
    pub n: usize,
    pub rows: &'a [Row],
    pub other: &'a [Row],
    pub lit: &'a Bits,
    pub unread: &'a Bits,
    /// The unread rows of the other kind, which serve all the same.
    pub other_unread: &'a Bits,
    pub lost: &'a Bits,
}

impl Half<'_> {
    /// The half's matrix: the rows that were read, with their numbers.
    pub fn read(&self) -> impl Iterator<Item = (usize, &Row)> {
        self.rows.iter().enumerate().filter(|(at, _)| !self.unread.get(*at))
    }
}

#[derive(Clone, Copy, PartialEq, Eq, Debug)]
pub struct Asked {
    pub budget: usize,
    pub limit: usize,
}

impl Asked {
    /// The largest budget and limit.
    pub const AMPLE: Asked = Asked { budget: 255, limit: 65_535 };
}

#[derive(Clone, Copy, PartialEq, Eq, Debug)]
pub enum Word {
    Certain,
    Unsure,
    None,
    Spent,
    Stopped,
}

impl Word {
    pub const ALL: [Word; 5] =
        [Word::Certain, Word::Unsure, Word::None, Word::Spent, Word::Stopped];

    pub fn name(self) -> &'static str {
        match self {
            Word::Certain => "certain",
            Word::Unsure => "unsure",
            Word::None => "none",
            Word::Spent => "spent",
            Word::Stopped => "stopped",
        }
    }

    pub fn finished(self) -> bool {
        matches!(self, Word::Certain | Word::Unsure)
    }
}

#[derive(Clone, Copy, PartialEq, Eq, Debug)]
pub struct Counts {
    pub fixed: usize,
    pub turns: usize,
    pub guesses: usize,
    pub live: usize,
}

/// What a half's line says; flips only of a finished half.
#[derive(Clone, PartialEq, Eq, Debug)]
pub struct Said {
    pub word: Word,
    pub counts: Counts,
    pub flips: Option<Vec<usize>>,
}

pub mod mark {
    pub const NOT_LOST: u8 = 0;
    pub const FIXED: u8 = 1;
    pub const PEELED: u8 = 2;
    pub const GUESSED: u8 = 3;
    pub const OPEN: u8 = 4;
}

/// A half's report, and of its three lists what is about the n qubits.
#[derive(Clone, PartialEq, Eq, Debug)]
pub struct Report {
    pub word: Word,
    pub counts: Counts,
    pub correction: Vec<u8>,
    pub marks: Vec<u8>,
    pub forms: Vec<Form>,
}

impl Report {
    pub fn said(&self) -> Said {
        let ones = |&qubit: &usize| self.correction[qubit] == 1;
        let flips = || (0..self.correction.len()).filter(ones).collect();
        Said { word: self.word, counts: self.counts, flips: self.word.finished().then(flips) }
    }
}
