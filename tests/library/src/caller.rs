//! A caller of the library: code, shot, window and state as the last call left them, the rest new at
//! every call.

use crate::guard::{Region, Side};
use crate::lengths::{Lengths, HELD, NAMES, WIDTHS, WINDOW};
use crate::reports;
use crate::tally::Tally;
use crate::watch;
use judge::codes::QUBITS;
use judge::judge::ensure;
use judge::random::Random;
use rack::lent::{self, Lent, Three};
use rack::raw::{self, answer, kind, phase, Reply, State};
use std::ops::Range;

pub struct Caller {
    pub random: Random,
    pub tally: Tally,
    pub state: State,
    /// The bytes of `flat`, `ends`, `shot` and `window`.
    pub held: [Vec<u8>; HELD],
    garbage: Vec<u8>,
    /// The part of the garbage that each list was last lent with.
    lent: [Range<usize>; NAMES.len()],
    lists: [Region; NAMES.len()],
    record: Region,
}

impl Caller {
    /// With room for lists of so many times their least length and somewhat more.
    pub fn new(seed: u64, times: usize) -> Caller {
        assert_eq!(lent::version(), raw::VERSION, "the library's version");
        let mut random = Random::new(seed);
        let least = Lengths::least(QUBITS).0;
        let room: [usize; NAMES.len()] =
            std::array::from_fn(|list| (least[list] * times + 40) * WIDTHS[list]);
        let most = *room.iter().max().expect("eleven lists");
        Caller {
            garbage: garbage(&mut random, most),
            random,
            tally: Tally::default(),
            state: fresh(),
            held: std::array::from_fn(|list| vec![0; room[list]]),
            lent: std::array::from_fn(|_| 0..0),
            lists: room.map(Region::new),
            record: Region::new(100),
        }
    }

    /// A fresh start on the lists as they are.
    pub fn begin(&mut self) {
        watch::tell(|| "a fresh start".into());
        self.state = fresh();
    }

    /// A fresh start with anything in the lists.
    pub fn restart(&mut self) {
        self.begin();
        for list in 0..HELD {
            let part = self.some_garbage(self.held[list].len());
            self.held[list].copy_from_slice(&self.garbage[part]);
        }
    }

    fn some_garbage(&mut self, bytes: usize) -> Range<usize> {
        let from = self.random.within(0, self.garbage.len() - bytes);
        from..from + bytes
    }

    /// For how many qubits the record needs elements in the six lists.
    pub fn needed(&self, record: &[u8]) -> usize {
        let decodes = record.first() == Some(&kind::DECODE) && self.state.phase == phase::READY;
        if decodes {
            self.state.n.into()
        } else {
            0
        }
    }

    /// One call. What is outside the lists and the record must stay, after a refusal and after kind 8 every list, and of
    /// the window all but the place of a report.
    pub fn call(&mut self, record: &[u8], lengths: &Lengths) -> Result<Reply, String> {
        watch::record(record, || lengths.short(self.needed(record)));
        for list in 0..NAMES.len() {
            let bytes = lengths.0[list] * WIDTHS[list];
            self.lent[list] = if list < HELD { 0..bytes } else { self.some_garbage(bytes) };
            let side = self.random.pick(&[Side::Start, Side::End]);
            let from = self.held.get(list).unwrap_or(&self.garbage);
            self.lists[list].place(&from[self.lent[list].clone()], side);
        }
        self.record.place(record, self.random.pick(&[Side::Start, Side::End]));
        let mut lent = lend(&mut self.lists);
        // `new` compared the versions.
        let mut call = |bytes: &[u8]| unsafe { lent::step(self.state, &mut lent, bytes) };
        let step = |bytes: &[u8]| watch::call(|| call(bytes));
        let reply = self.record.locked(step);
        let windows = [&self.held[WINDOW][self.lent[WINDOW].clone()], self.after(WINDOW)];
        reports::entered(self.state, record, &reply, windows)?;
        self.state = reply.state;
        if reply.answer == answer::REFUSED || record.first() == Some(&kind::LOGICAL) {
            self.unwritten()?;
        }
        for (held, list) in self.held.iter_mut().zip(&self.lists) {
            held[..list.list().len()].copy_from_slice(list.list());
        }
        for (list, name) in self.lists.iter().zip(NAMES) {
            ensure(list.intact(), || format!("written outside {name}"))?;
        }
        self.tally.add(&reply)?;
        Ok(reply)
    }

    /// No list is other than it was lent.
    fn unwritten(&self) -> Result<(), String> {
        (0..NAMES.len()).try_for_each(|list| {
            let from = self.held.get(list).unwrap_or(&self.garbage);
            let same = self.lists[list].list() == &from[self.lent[list].clone()];
            ensure(same, || format!("a refusal or kind 8 wrote {}", NAMES[list]))
        })
    }

    /// What the work list or one of the six was lent with.
    pub fn before(&self, list: usize) -> &[u8] {
        &self.garbage[self.lent[list].clone()]
    }

    /// What the last call left in a list.
    pub fn after(&self, list: usize) -> &[u8] {
        self.lists[list].list()
    }
}

/// No code and no shot.
fn fresh() -> State {
    // `Caller::new` compares the versions first.
    unsafe { lent::fresh() }
}

/// Zeros, ones and random bytes, from which lists of up to so many bytes are filled.
fn garbage(random: &mut Random, bytes: usize) -> Vec<u8> {
    let words = bytes.div_ceil(8);
    let random = std::iter::repeat_with(|| random.word()).take(2 * words);
    let constant = [0, u64::MAX].into_iter().flat_map(|word| std::iter::repeat_n(word, words));
    constant.chain(random).flat_map(u64::to_ne_bytes).collect()
}

fn lend(lists: &mut [Region; NAMES.len()]) -> Lent<'_> {
    let [flat, ends, shot, window, work, x_marks, x_forms, x_flips, z_marks, z_forms, z_flips] =
        lists;
    Lent {
        flat: flat.elements(),
        ends: ends.elements(),
        shot: shot.elements(),
        window: window.elements(),
        work: work.elements(),
        x: three(x_marks, x_forms, x_flips),
        z: three(z_marks, z_forms, z_flips),
    }
}

fn three<'a>(marks: &'a mut Region, forms: &'a mut Region, flips: &'a mut Region) -> Three<'a> {
    let (marks, forms, correction) = (marks.elements(), forms.elements(), flips.elements());
    Three { marks, forms, correction }
}
