//! A half's report, in the header's numbers and in the judge's words.

use crate::caller::Caller;
use crate::lengths::{Lengths, SIX};
use judge::form::{Form, WORDS};
use judge::half::{Counts, Report, Word};
use judge::stream::Record;
use rack::raw::{answer, Half, Reply};

/// Word and counts as the header has them.
pub fn half(report: &Report) -> Half {
    let Counts { fixed, turns, guesses, live } = report.counts;
    let [fixed, turns, guesses, live] = [fixed, turns, guesses, live].map(|count| count as u16);
    Half { word: number(report.word), fixed, turns, guesses, live }
}

/// The header's number of a word, by the word's name.
pub fn number(word: Word) -> u16 {
    let named = rack::Word::ALL.iter().find(|named| named.name() == word.name());
    named.expect("the judge's words are the header's").number()
}

/// The bytes of marks, forms and correction.
pub fn lists(report: &Report) -> [Vec<u8>; 3] {
    let words = report.forms.iter().flat_map(|form| form.0);
    let forms = words.flat_map(u64::to_ne_bytes).collect();
    [report.marks.clone(), forms, report.correction.clone()]
}

/// A form by its bytes.
fn form(bytes: &[u8]) -> Form {
    let word = |at: usize| bytes[8 * at..][..8].try_into().expect("8 bytes");
    Form(std::array::from_fn(|at| u64::from_ne_bytes(word(at))))
}

/// A reply and what it reports of the two halves, if it decoded.
pub type Outcome = (Reply, Option<[Report; 2]>);

impl Caller {
    /// Calls on lists somewhat longer than they need to be.
    pub fn calls(&mut self, records: &[Record]) -> Result<Vec<Outcome>, String> {
        let mut outcomes = Vec::new();
        for record in records {
            let needed = self.needed(record);
            let lengths = Lengths::above(&mut self.random, needed);
            let reply = self.call(record, &lengths)?;
            outcomes.push((reply, self.reports(&reply)));
        }
        Ok(outcomes)
    }

    /// What the last call reports of its two halves, if it decoded.
    pub fn reports(&self, reply: &Reply) -> Option<[Report; 2]> {
        let n = usize::from(reply.state.n);
        let read = |half: Half, first: usize| {
            let [fixed, turns, guesses, live] =
                [half.fixed, half.turns, half.guesses, half.live].map(usize::from);
            let forms = self.after(first + 1)[..8 * WORDS * n].chunks_exact(8 * WORDS);
            Report {
                word: Word::ALL
                    .into_iter()
                    .find(|&word| number(word) == half.word)
                    .expect("a word"),
                counts: Counts { fixed, turns, guesses, live },
                marks: self.after(first)[..n].into(),
                forms: forms.map(form).collect(),
                correction: self.after(first + 2)[..n].into(),
            }
        };
        let decoded = reply.answer == answer::DECODED;
        decoded.then(|| [read(reply.x, SIX), read(reply.z, SIX + 3)])
    }
}
