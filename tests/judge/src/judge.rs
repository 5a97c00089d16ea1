//! Judges a half by elimination, without turns.

use crate::bits::Bits;
use crate::codes::{odd, set};
use crate::half::{Asked, Counts, Half, Row, Said, Word};
use crate::linear::Span;

pub type Judged = Result<(), String>;

pub fn ensure(holds: bool, otherwise: impl FnOnce() -> String) -> Judged {
    if holds {
        Ok(())
    } else {
        Err(otherwise())
    }
}

/// What elimination finds out about a half.
#[derive(Clone, PartialEq, Eq, Debug)]
pub struct Verdict {
    pub lost: usize,
    pub fixed: Vec<usize>,
    /// Dimension of the errors that fire no row that was read, modulo other-kind products.
    pub classes: usize,
    /// An error that fits.
    pub error: Option<Bits>,
}

pub fn verdict(half: &Half) -> Verdict {
    let lost = half.lost.ones();
    let system = System::new(half, &lost);
    let fixed = fixed(half);
    Verdict {
        classes: lost.len() - system.rank() - fixed.len(),
        error: system.error(),
        lost: lost.len(),
        fixed,
    }
}

/// The lowest qubits of the other-kind products inside the lost set: with the
/// qubits that are not lost in front, those products lead in the lost part.
pub fn fixed(half: &Half) -> Vec<usize> {
    let (lost, kept): (Vec<usize>, Vec<usize>) = (0..half.n).partition(|&q| half.lost.get(q));
    let order = [&kept[..], &lost[..]].concat();
    let mut place = vec![0; half.n];
    order.iter().enumerate().for_each(|(at, &qubit)| place[qubit] = at);
    let vectors = half.other.iter().map(|row| Bits::of(half.n, row.iter().map(|&q| place[q])));
    let span = Span::of(half.n, vectors);
    span.leads().filter(|&at| at >= kept.len()).map(|at| order[at]).collect()
}

/// The rows that were read on the lost qubits, the lit bits as one more column.
struct System {
    n: usize,
    lost: Vec<usize>,
    span: Span,
}

impl System {
    fn new(half: &Half, lost: &[usize]) -> System {
        let last = lost.len();
        let mut column = vec![None; half.n];
        lost.iter().enumerate().for_each(|(at, &qubit)| column[qubit] = Some(at));
        let vectors = half.read().map(|(at, row)| {
            let places = row.iter().filter_map(|&qubit| column[qubit]);
            Bits::of(last + 1, places.chain(half.lit.get(at).then_some(last)))
        });
        let span = Span::of(last + 1, vectors);
        System { n: half.n, lost: lost.to_vec(), span }
    }

    fn rank(&self) -> usize {
        self.span.leads().filter(|&at| at < self.lost.len()).count()
    }

    fn error(&self) -> Option<Bits> {
        let last = self.lost.len();
        if self.span.leads().any(|at| at == last) {
            return None;
        }
        let found = self.span.orthogonal(Bits::of(last + 1, [last]));
        let ones = found.ones().into_iter().filter(|&at| at < last);
        Some(Bits::of(self.n, ones.map(|at| self.lost[at])))
    }
}

/// Whether an error lies in the lost set and fires exactly the lit ones among the rows that were
/// read.
pub fn fits(half: &Half, error: &Bits) -> bool {
    let fires = |(at, row): (usize, &Row)| odd(row, error) == half.lit.get(at);
    error.inside(half.lost) && half.read().all(fires)
}

impl Verdict {
    /// Judges what a half's line says.
    pub fn judge(&self, half: &Half, asked: Asked, said: &Said) -> Judged {
        self.counts(asked, said.word, said.counts)?;
        ensure(said.flips.is_some() == said.word.finished(), || {
            format!("{} and flips do not go together", said.word.name())
        })?;
        let Some(flips) = &said.flips else {
            return Ok(());
        };
        ensure(flips.windows(2).all(|pair| pair[0] < pair[1]), || "flips do not ascend".into())?;
        ensure(flips.iter().all(|&qubit| qubit < half.n), || "no such qubit".into())?;
        let error = set(half.n, flips);
        ensure(fits(half, &error), || "the flips do not fit".into())
    }

    fn counts(&self, asked: Asked, word: Word, counts: Counts) -> Judged {
        let Counts { fixed, turns, guesses, live } = counts;
        let ends = self.lost - self.fixed.len();
        let equal = |what: &str, is: usize, should: usize| {
            ensure(is == should, || format!("{what} is {is}, should be {should}"))
        };
        let most = |what: &str, is: usize, end: usize| {
            ensure(is <= end, || format!("{what} is {is}, above {end}"))
        };
        equal("fixed", fixed, self.fixed.len())?;
        most("turns", turns, ends.min(asked.limit))?;
        most("guesses", guesses, turns)?;
        most("live", live, guesses.min(asked.budget))?;
        match word {
            Word::Spent => {
                equal("live", live, asked.budget)?;
                ensure(turns < ends.min(asked.limit), || "spent, yet ended otherwise".into())
            }
            Word::Stopped => {
                equal("turns", turns, asked.limit)?;
                ensure(turns < ends, || "stopped, yet no qubit is open".into())
            }
            Word::None => {
                ensure(self.error.is_none(), || "none, yet an error fits".into())?;
                equal("live", live, 0)
            }
            Word::Certain | Word::Unsure => {
                ensure(self.error.is_some(), || "finished, yet no error fits".into())?;
                equal("turns", turns, ends)?;
                equal("live", live, self.classes)?;
                let certain = self.classes == 0;
                ensure(certain == (word == Word::Certain), || "wrong word for its classes".into())
            }
        }
    }
}
