//! A caller with the model beside it: every call is compared and every report judged.

use crate::caller::Caller;
use crate::lengths::{Lengths, EACH, HELD, LEAST, NAMES, SIX, WIDTHS, WINDOW, WORK};
use crate::mirror::{told, Decoded, Mirror};
use crate::reader::{self, Reader};
use crate::report;
use judge::judge::{ensure, verdict, Judged};
use judge::random::Random;
use judge::stream::Record;
use rack::raw::{kind, phase, refusal, Reply, State};

pub struct Session {
    pub caller: Caller,
    pub reader: Reader,
    mirror: Mirror,
}

/// Draws the lengths of a call that needs the six lists for so many qubits.
pub type Draw = fn(&mut Random, usize) -> Lengths;

impl Session {
    pub fn new(seed: u64, times: usize) -> Session {
        let mut caller = Caller::new(seed, times);
        let reader = Reader::new(caller.random.word());
        let mirror = Mirror::new(&caller.held);
        Session { caller, reader, mirror }
    }

    /// A fresh start, with anything in the lists.
    pub fn restart(&mut self) {
        self.caller.restart();
        self.mirror.begin(&self.caller.held);
    }

    /// A fresh start on the lists as they are.
    pub fn begin(&mut self) {
        self.caller.begin();
        self.mirror.begin(&self.caller.held);
    }

    /// Fails if records of kind 8 did not meet everything.
    pub fn compared(&self) -> Judged {
        self.mirror
            .compared
            .counts()
            .iter()
            .try_for_each(|(what, times)| ensure(*times > 0, || format!("{what}: never")))
    }

    pub fn calls(&mut self, records: &[Record], draw: Draw) -> Judged {
        records.iter().try_for_each(|record| {
            let lengths = self.lengths(record, draw);
            self.call(record, &lengths).map(drop)
        })
    }

    pub fn lengths(&mut self, record: &[u8], draw: Draw) -> Lengths {
        let needed = self.caller.needed(record);
        draw(&mut self.caller.random, needed)
    }

    /// One call, equal to the model's in the reply and in each element of each list. Sometimes the
    /// window is read after it.
    pub fn call(&mut self, record: &[u8], lengths: &Lengths) -> Result<Reply, String> {
        let (expected, decoded) = self.mirror.step(record, lengths);
        let before = self.caller.state;
        let reply = self.caller.call(record, lengths)?;
        ensure(told(reply) == expected, || format!("{reply:?} should be {expected:?}"))?;
        if record.first() == Some(&kind::LOGICAL) {
            kept_by_logical(before, &reply)?;
        }
        for list in 0..HELD {
            same(list, 0, &self.mirror.held[list], &self.caller.held[list])?;
        }
        match decoded {
            None => (WORK..NAMES.len()).try_for_each(|list| self.kept(list, 0))?,
            Some(decoded) => self.decoded(&reply, &decoded)?,
        }
        if self.caller.random.percent(10) {
            self.read(LEAST[WINDOW])?;
        }
        Ok(reply)
    }

    /// A read of the window's first elements: if they are enough, a fresh count over the last of all
    /// reports since the last kind 1 that was not refused.
    pub fn read(&mut self, length: usize) -> Judged {
        let list = &self.caller.held[WINDOW][..length * WIDTHS[WINDOW]];
        let counts = self.reader.read(self.caller.state, list)?;
        let enough = length >= LEAST[WINDOW];
        let expected = if enough { self.mirror.reports.counts() } else { reader::SHORT };
        ensure(counts == expected, || format!("{counts:?} should be {expected:?}"))
    }

    /// How many reports there were since the last kind 1 that was not refused.
    pub fn reports(&self) -> usize {
        self.mirror.reports.count()
    }

    /// The n qubits' elements are the model's, those after them as they were, and the report stands.
    fn decoded(&self, reply: &Reply, (decode, expected): &Decoded) -> Judged {
        self.kept(WORK, LEAST[WORK])?;
        let reports = self.caller.reports(reply).expect("a decode's reply");
        for (which, half) in decode.halves().iter().enumerate() {
            for (list, expected) in (SIX + 3 * which..).zip(report::lists(&expected[which])) {
                same(list, 0, &expected, &self.caller.after(list)[..expected.len()])?;
                self.kept(list, EACH[list - SIX] * half.n)?;
            }
            let verdict = verdict(half);
            verdict.judge(half, decode.asked, &reports[which].said())?;
            verdict.lists(half, &reports[which])?;
        }
        Ok(())
    }

    /// Elements from `from` on are as they were.
    fn kept(&self, list: usize, from: usize) -> Judged {
        let rest = from * WIDTHS[list]..;
        same(list, from, &self.caller.before(list)[rest.clone()], &self.caller.after(list)[rest])
    }
}

/// Kind 8 leaves each part of the state as it was, but for the phase where it drops the code; of another length it spoils.
fn kept_by_logical(before: State, reply: &Reply) -> Judged {
    let expected = match reply.refusal {
        refusal::LENGTH => State { spoiled: reply.state.spoiled, ..before },
        refusal::ENCODED => State { phase: phase::EMPTY, ..before },
        _ => before,
    };
    ensure(reply.state == expected, || format!("{before:?} became {:?}", reply.state))
}

/// Whether a list is as expected from element `from` on.
fn same(list: usize, from: usize, expected: &[u8], actual: &[u8]) -> Judged {
    ensure(expected == actual, || {
        let pairs = expected.chunks(WIDTHS[list]).zip(actual.chunks(WIDTHS[list]));
        let (at, (expected, actual)) =
            pairs.enumerate().find(|(_, (expected, actual))| expected != actual).expect("as long");
        format!("{}[{}] is {actual:?}, should be {expected:?}", NAMES[list], from + at)
    })
}
