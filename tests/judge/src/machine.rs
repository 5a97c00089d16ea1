//! A half, turn by turn: document 01's steps, taken one at a time.

use crate::form::Form;
use crate::half::{mark, Asked, Counts, Half, Report, Row, Word};
use crate::wrong::{Part, Wrong};
use std::cmp::Reverse;

pub fn decode(half: &Half, asked: Asked) -> Report {
    decode_by(Wrong::Nothing, half, asked)
}

pub fn decode_by(wrong: Wrong, half: &Half, asked: Asked) -> Report {
    let mut machine = Machine::new(half, wrong);
    let word = machine.run(asked);
    machine.report(word)
}

/// What came of a half, and what came up on the way.
#[derive(Clone, Copy)]
pub struct Course {
    pub word: Word,
    pub guesses: usize,
    /// The most that were live at once.
    pub live: usize,
    pub replaced: Replaced,
}

/// How often a guess was replaced, by the word that it was in, and how often another then moved down across the border of two words, by the lower one.
#[derive(Clone, Copy, Default)]
pub struct Replaced {
    pub words: [usize; 4],
    pub borders: [usize; 3],
}

pub fn course(wrong: Wrong, half: &Half, asked: Asked) -> Course {
    let mut machine = Machine::new(half, wrong);
    let word = machine.run(asked);
    let guesses = machine.count(&[mark::GUESSED]);
    Course { word, guesses, live: machine.most_live, replaced: machine.replaced }
}

/// What a half needs: its course with the largest budget.
pub fn needs(wrong: Wrong, half: &Half) -> Course {
    course(wrong, half, Asked::AMPLE)
}

struct Machine<'a> {
    half: &'a Half<'a>,
    wrong: Wrong,
    marks: Vec<u8>,
    forms: Vec<Form>,
    live: usize,
    /// The most that were live at once.
    most_live: usize,
    replaced: Replaced,
    /// The rows that can dangle, in the order in which they are tried.
    peeling: Vec<usize>,
    /// The rows that are taken up when they are closed, ascending.
    closing: Vec<usize>,
    /// The rows that count for the guess.
    counted: Vec<usize>,
    /// The qubits in the order in which equals are guessed.
    order: Vec<usize>,
    /// The half's rows, then the other kind's, and those that each qubit is on.
    rows: Vec<&'a Row>,
    on: Vec<Vec<usize>>,
    /// How many open qubits each row has, and had at the start.
    open: Vec<usize>,
    first: Vec<usize>,
}

impl<'a> Machine<'a> {
    fn new(half: &'a Half<'a>, wrong: Wrong) -> Machine<'a> {
        let mut marks = vec![mark::NOT_LOST; half.n];
        half.lost.ones().into_iter().for_each(|qubit| marks[qubit] = mark::OPEN);
        let mut peeling = wrong.rows(half, Part::Dangle);
        if wrong == Wrong::PeelHighest {
            peeling.reverse();
        }
        let rows: Vec<&Row> = half.rows.iter().chain(half.other).collect();
        let mut on = vec![Vec::new(); half.n];
        for (at, row) in rows.iter().enumerate() {
            row.iter().for_each(|&qubit| on[qubit].push(at));
        }
        let counted = wrong.counted(half);
        Machine {
            half,
            wrong,
            marks,
            forms: vec![Form::ZERO; half.n],
            live: 0,
            most_live: 0,
            replaced: Replaced::default(),
            peeling,
            closing: wrong.rows(half, Part::Close),
            order: wrong.order_of_equals(half.n, counted.iter().map(|&at| rows[at])),
            counted,
            rows,
            on,
            open: Vec::new(),
            first: Vec::new(),
        }
    }

    fn run(&mut self, asked: Asked) -> Word {
        let mut closed = self.start();
        loop {
            if !self.take_up(&closed) {
                return Word::None;
            }
            if let Some(word) = self.ending(asked) {
                debug_assert_eq!(self.open, self.count_open());
                return word;
            }
            closed = self.turn();
        }
    }

    /// Settles the fixed qubits; the closed rows.
    fn start(&mut self) -> Vec<usize> {
        for qubit in self.wrong.fixed(self.half) {
            self.marks[qubit] = mark::FIXED;
        }
        self.open = self.count_open();
        self.first = self.open.clone();
        let touched = |row: usize| self.half.rows[row].iter().any(|&q| self.half.lost.get(q));
        let seen = |row: usize| self.wrong != Wrong::UntouchedIgnored || touched(row);
        let rows = self.closing.iter().copied();
        rows.filter(|&row| self.open[row] == 0 && seen(row)).collect()
    }

    fn is_open(&self, qubit: usize) -> bool {
        self.marks[qubit] == mark::OPEN
    }

    /// A fresh count of each row's open qubits.
    fn count_open(&self) -> Vec<usize> {
        let open = |row: &&Row| row.iter().filter(|&&qubit| self.is_open(qubit)).count();
        self.rows.iter().map(open).collect()
    }

    fn settle(&mut self, qubit: usize, mark: u8, form: Form) {
        (self.marks[qubit], self.forms[qubit]) = (mark, form);
        self.on[qubit].iter().for_each(|&row| self.open[row] -= 1);
    }

    fn side(&self, row: usize) -> Form {
        let lit = if self.wrong.lit(self.half, row) { Form::ONE } else { Form::ZERO };
        self.half.rows[row].iter().fold(lit, |sum, &qubit| sum ^ self.forms[qubit])
    }

    /// Takes up closed rows, ascending; false where the half ends in none.
    fn take_up(&mut self, closed: &[usize]) -> bool {
        for &row in closed {
            match self.side(row) {
                Form::ZERO => {}
                Form::ONE => return false,
                side => self.replace(side),
            }
        }
        true
    }

    /// Replaces the newest guess in the side by the rest of the side.
    fn replace(&mut self, side: Form) {
        let guess = self.wrong.replaced(side);
        for form in &mut self.forms {
            if form.get(guess) {
                *form = *form ^ side;
            }
        }
        self.note(guess);
        for form in &mut self.forms {
            *form = self.wrong.closed_up(*form, guess);
        }
        self.live -= 1;
    }

    /// Counts a guess that is to be taken out, and those that move across words' borders then.
    fn note(&mut self, guess: usize) {
        self.replaced.words[guess / 64] += 1;
        for (word, moved) in (1..).zip(&mut self.replaced.borders) {
            let crosses = |form: &Form| guess < 64 * word && form.get(64 * word);
            *moved += usize::from(self.forms.iter().any(crosses));
        }
    }

    fn dangling(&self) -> Option<(usize, usize)> {
        let row = self.peeling.iter().copied().find(|&row| self.open[row] == 1)?;
        let qubit = self.rows[row].iter().copied().find(|&qubit| self.is_open(qubit));
        Some((row, qubit.expect("an open qubit")))
    }

    fn count(&self, marks: &[u8]) -> usize {
        self.marks.iter().filter(|mark| marks.contains(mark)).count()
    }

    fn turns(&self) -> usize {
        self.count(&[mark::PEELED, mark::GUESSED])
    }

    /// The word that a half gets before its next turn.
    fn ending(&self, asked: Asked) -> Option<Word> {
        let finished = (!self.marks.contains(&mark::OPEN)).then(|| match self.live {
            0 => Word::Certain,
            _ if self.wrong == Wrong::CertainIfFits => Word::Certain,
            _ => Word::Unsure,
        });
        let stopped = (self.turns() == asked.limit).then_some(Word::Stopped);
        let used = match self.wrong {
            Wrong::BudgetOverall => self.count(&[mark::GUESSED]),
            _ => self.live,
        };
        let stuck = || self.wrong == Wrong::BudgetFirst || self.dangling().is_none();
        let spent = (used == asked.budget && stuck()).then_some(Word::Spent);
        match self.wrong {
            Wrong::LimitFirst => stopped.or(finished).or(spent),
            Wrong::SpentFirst => finished.or(spent).or(stopped),
            _ => finished.or(stopped).or(spent),
        }
    }

    /// Settles one qubit; the rows that this closed.
    fn turn(&mut self) -> Vec<usize> {
        let settled = match self.dangling() {
            Some((row, qubit)) => {
                self.settle(qubit, mark::PEELED, self.side(row));
                qubit
            }
            None => {
                let qubit = self.guess();
                self.live += 1;
                self.most_live = self.most_live.max(self.live);
                self.settle(qubit, mark::GUESSED, self.wrong.guessed(self.live));
                qubit
            }
        };
        let closes = |row: &usize| self.open[*row] == 0 && self.closing.binary_search(row).is_ok();
        self.on[settled].iter().copied().filter(closes).collect()
    }

    /// On how many rows that have exactly two open qubits each qubit is.
    fn pairs(&self) -> Vec<usize> {
        let mut pairs = vec![0; self.half.n];
        let open = match self.wrong {
            Wrong::GuessByRows => return pairs,
            Wrong::PairsOfTheStart => &self.first,
            _ => &self.open,
        };
        for &row in self.counted.iter().filter(|&&row| open[row] == 2) {
            self.rows[row].iter().for_each(|&qubit| pairs[qubit] += 1);
        }
        pairs
    }

    /// The open qubit on most rows that have exactly two open qubits, the first of equals.
    fn guess(&self) -> usize {
        let pairs = self.pairs();
        let open = self.order.iter().copied().filter(|&qubit| self.is_open(qubit));
        open.min_by_key(|&qubit| Reverse(pairs[qubit])).expect("an open qubit")
    }

    fn report(mut self, word: Word) -> Report {
        let mut counts = Counts {
            fixed: self.count(&[mark::FIXED]),
            turns: self.turns(),
            guesses: self.count(&[mark::GUESSED]),
            live: self.live,
        };
        if word == Word::None {
            if self.wrong != Wrong::LiveAfterNone {
                counts.live = 0;
            }
            if self.wrong == Wrong::FailingUncounted {
                counts.turns = counts.turns.saturating_sub(1);
            }
            self.marks.fill(0);
            self.forms.fill(Form::ZERO);
        }
        let correction = match word.finished() {
            true => self.forms.iter().map(|form| u8::from(form.get(0))).collect(),
            false => vec![0; self.half.n],
        };
        let (marks, forms) = (self.marks, self.forms);
        Report { word, counts, correction, marks, forms }
    }
}
