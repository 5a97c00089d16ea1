//! How often each answer was met.

use crate::Checked;
use judge::half::Word;
use judge::judge::{ensure, Judged};
use rack::raw::{answer, phase, Reply};
use rack::Refusal;
use std::fmt::{self, Display, Formatter};

#[derive(Default)]
pub struct Tally {
    calls: usize,
    decodes: usize,
    words: [usize; Word::ALL.len()],
    /// The most live guesses that a half was reported with.
    live: u16,
    /// In the order of `of_records`.
    refusals: [usize; Refusal::ALL.len()],
}

impl Tally {
    /// Counts a reply that the header allows.
    pub fn add(&mut self, reply: &Reply) -> Judged {
        ensure(allowed(reply), || format!("no reply is {reply:?}"))?;
        self.calls += 1;
        match reply.answer {
            answer::DECODED => {
                self.decodes += 1;
                for half in [reply.x, reply.z] {
                    self.words[usize::from(half.word) - 1] += 1;
                    self.live = self.live.max(half.live);
                }
            }
            answer::REFUSED => self.refusals[place(reply.refusal).expect("allowed")] += 1,
            _ => {}
        }
        Ok(())
    }

    /// Fails if many calls did not meet every word and every refusal of records.
    pub fn all(&self) -> Checked {
        self.all_of(of_records())
    }

    /// The same where no list is short.
    pub fn all_but_short(&self) -> Checked {
        self.all_of(of_records().filter(|&why| why != Refusal::Short))
    }

    fn all_of(&self, refusals: impl Iterator<Item = Refusal>) -> Checked {
        let count = |why: Refusal| self.refusals[place(why.number()).expect("a refusal")];
        let met = self.words.iter().copied().chain(refusals.map(count)).all(|count| count > 0);
        ensure(met || !self.enough(), || format!("not all was met: {self}"))?;
        Ok(self.to_string())
    }

    /// Fails if many calls did not meet live guesses in every word of a form.
    pub fn live_in_every_word(&self) -> Checked {
        ensure(self.live >= 192 || !self.enough(), || format!("few live guesses: {self}"))?;
        Ok(self.to_string())
    }

    /// Whether so many calls should meet everything.
    pub fn enough(&self) -> bool {
        self.calls >= 20_000
    }

    /// With another's calls.
    pub fn and(mut self, other: &Tally) -> Tally {
        let add = |sums: &mut [usize], counts: &[usize]| {
            sums.iter_mut().zip(counts).for_each(|(sum, count)| *sum += count);
        };
        self.calls += other.calls;
        self.decodes += other.decodes;
        self.live = self.live.max(other.live);
        add(&mut self.words, &other.words);
        add(&mut self.refusals, &other.refusals);
        self
    }
}

/// What records are refused with; the others are refusals of candidates.
fn of_records() -> impl Iterator<Item = Refusal> {
    let all = Refusal::ALL.iter().copied();
    all.filter(|why| !matches!(why, Refusal::Unfinished | Refusal::Many))
}

/// Where a number that records are refused with is among them.
fn place(number: u16) -> Option<usize> {
    of_records().position(|why| why.number() == number)
}

/// Whether answer, refusal, words and the state's parts have values of the header.
fn allowed(reply: &Reply) -> bool {
    let decoded = reply.answer == answer::DECODED;
    let refused = reply.answer == answer::REFUSED;
    let refusal = if refused { place(reply.refusal).is_some() } else { reply.refusal == 0 };
    let word = if decoded { 1..=Word::ALL.len() } else { 0..=0 };
    let halves = [reply.x, reply.z]
        .iter()
        .all(|half| word.contains(&half.word.into()) && (decoded || *half == Default::default()));
    let state = reply.state;
    let flags = [state.clash, state.spoiled, state.stale].iter().all(|&flag| flag <= 1);
    let answered = reply.answer <= answer::REFUSED && refusal;
    answered && halves && flags && state.phase <= phase::READY
}

impl Display for Tally {
    fn fmt(&self, to: &mut Formatter) -> fmt::Result {
        write!(to, "{} calls, {} decodes", self.calls, self.decodes)?;
        for (word, count) in Word::ALL.iter().zip(self.words) {
            write!(to, ", {} {count}", word.name())?;
        }
        write!(to, ", up to {} live guesses", self.live)?;
        for (why, count) in of_records().zip(self.refusals).filter(|(_, count)| *count > 0) {
            write!(to, ", refused {} {count}", why.number())?;
        }
        Ok(())
    }
}
