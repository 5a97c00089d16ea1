//! The call for a candidate, on lists between guard pages: each answer is the model's.

use crate::guard::{Region, Side};
use crate::report::number;
use crate::watch;
use judge::candidates::Ask;
use judge::form::WORDS;
use judge::half::Word;
use judge::judge::ensure;
use judge::random::Random;
use rack::lent;
use rack::raw;

/// A candidate, or the number of its refusal.
type Shown = Result<Vec<u8>, u16>;

pub struct Asker {
    random: Random,
    marks: Region,
    forms: Region,
    candidate: Region,
    pub answers: Answers,
}

/// How often each was met.
#[derive(Default, Debug)]
pub struct Answers {
    pub shown: usize,
    pub short: usize,
    pub unfinished: usize,
    pub many: usize,
}

impl Asker {
    /// With room for lists of so many qubits and somewhat more.
    pub fn new(seed: u64, n: usize) -> Asker {
        assert_eq!(lent::version(), raw::VERSION, "the library's version");
        let elements = |width: usize| Region::new(width * n + 100);
        let [marks, forms, candidate] = [1, 8 * WORDS, 1].map(elements);
        Asker { random: Random::new(seed), marks, forms, candidate, answers: Answers::default() }
    }

    /// One call; nothing but the candidate's elements may be written.
    pub fn ask(&mut self, ask: &Ask) -> Result<Shown, String> {
        let word = self.word(ask.word);
        watch::tell(|| told(ask, word));
        let garbage: Vec<u8> = (0..ask.room).map(|_| self.random.word() as u8).collect();
        let forms: Vec<u8> = ask.forms.iter().flat_map(|word| word.to_ne_bytes()).collect();
        self.marks.place(&ask.marks, side(&mut self.random));
        self.forms.place(&forms, side(&mut self.random));
        self.candidate.place(&garbage, side(&mut self.random));
        let refusal = self.call(ask, word);
        let after = self.candidate.list();
        let first = || after[..ask.n.min(ask.room)].to_vec();
        let shown = if refusal == 0 { Ok(first()) } else { Err(refusal) };
        let expected = ask.answer().map_err(u16::from);
        let asked = || told(ask, word);
        ensure(shown == expected, || format!("{}: {shown:?}, not {expected:?}", asked()))?;
        let end = shown.as_ref().map_or(0, Vec::len);
        ensure(after[end..] == garbage[end..], || format!("{}: written past it", asked()))?;
        for (list, name) in [&self.marks, &self.forms, &self.candidate].into_iter().zip(NAMES) {
            ensure(list.intact(), || format!("{}: written outside {name}", asked()))?;
        }
        self.answers.add(&shown);
        Ok(shown)
    }

    /// The call with marks and forms read-only.
    fn call(&mut self, ask: &Ask, word: u16) -> u16 {
        let (n, live) = (ask.n as u16, ask.live as u16);
        let candidate = self.candidate.elements();
        self.marks.locked(|marks| {
            self.forms.locked(|forms| {
                let half = lent::Shown { n, word, live, marks, forms };
                // `new` compared the versions.
                watch::call(|| unsafe { lent::candidate(half, ask.number, candidate) })
            })
        })
    }

    /// A word's number, or one that no word has.
    fn word(&mut self, word: Option<Word>) -> u16 {
        // In their lowest byte the last two are certain and unsure.
        word.map_or_else(|| self.random.pick(&[0, 6, 7, u16::MAX, 257, 258]), number)
    }
}

const NAMES: [&str; 3] = ["marks", "forms", "candidate"];

fn side(random: &mut Random) -> Side {
    random.pick(&[Side::Start, Side::End])
}

fn told(ask: &Ask, word: u16) -> String {
    let Ask { n, live, marks, forms, number, room, .. } = ask;
    let lengths = format!("lists of {}, {} and {room}", marks.len(), forms.len());
    format!("candidate {number} of {n} qubits, word {word}, {live} live, {lengths}")
}

impl Answers {
    fn add(&mut self, shown: &Shown) {
        *match shown {
            Ok(_) => &mut self.shown,
            Err(12) => &mut self.short,
            Err(15) => &mut self.unfinished,
            Err(_) => &mut self.many,
        } += 1;
    }

    pub fn met(&self) -> bool {
        self.shown.min(self.short).min(self.unfinished).min(self.many) > 0
    }
}
