//! The library with lists of its own.

use crate::lent::{self, Lent, Three};
use crate::raw::{self, answer, least, State};
use crate::{Answer, Counts, Error, Half, Record, Refusal, Report, Sizes};

/// A code, a shot and the last reports, and lists that are always long enough.
pub struct Rack {
    state: State,
    flat: Box<[u16]>,
    ends: Box<[u16]>,
    shot: Box<[u8]>,
    window: Box<[u16]>,
    work: Box<[u64]>,
    x: Lists,
    z: Lists,
}

/// A half's lists.
struct Lists {
    marks: Box<[u8]>,
    forms: Box<[u64]>,
    correction: Box<[u8]>,
}

fn list<T: Clone + Default>(length: usize) -> Box<[T]> {
    vec![T::default(); length].into()
}

impl Lists {
    fn new() -> Lists {
        let (marks, correction) = (list(least::MARKS), list(least::CORRECTION));
        Lists { marks, forms: list(least::FORMS), correction }
    }

    fn lend(&mut self) -> Three<'_> {
        let Lists { marks, forms, correction } = self;
        Three { marks, forms, correction }
    }

    /// What a decode of a code of n qubits left here.
    fn half(&self, half: raw::Half, n: u16) -> Result<Half<'_>, Error> {
        let end = usize::from(n);
        let lists = [&self.marks[..end], &self.correction[..end]];
        Half::new(half, n, lists, &self.forms[..4 * end])
    }
}

impl Rack {
    /// A fresh start: no code, no shot and no report. An error if the library is of another version.
    pub fn new() -> Result<Rack, Error> {
        let library = lent::version();
        if library != raw::VERSION {
            return Err(Error::Version { library });
        }
        Ok(Rack {
            // The versions are the same.
            state: unsafe { lent::fresh() },
            flat: list(least::FLAT),
            ends: list(least::ENDS),
            shot: list(least::SHOT),
            window: list(least::WINDOW),
            work: list(least::WORK),
            x: Lists::new(),
            z: Lists::new(),
        })
    }

    /// A code's qubits, X rows and Z rows: drops any code and shot, and empties the window of
    /// reports. All X rows follow, then all Z rows.
    pub fn sizes(&mut self, n: usize, x: usize, z: usize) -> Result<Answer<'_>, Error> {
        self.take(Record::sizes(n, x, z))
    }

    /// A row of 1 to 16 qubits, strictly ascending.
    pub fn x_row(&mut self, qubits: &[u16]) -> Result<Answer<'_>, Error> {
        self.take(Record::x_row(qubits))
    }

    /// A row of 1 to 16 qubits, strictly ascending.
    pub fn z_row(&mut self, qubits: &[u16]) -> Result<Answer<'_>, Error> {
        self.take(Record::z_row(qubits))
    }

    /// The code's logical qubits, compared with what its rows encode: n less the ranks of the X rows
    /// and of the Z rows. Where they agree nothing changes, a shot stays open; where they differ
    /// `Refusal::Encoded`, and there is no code and no shot. `Refusal::Codeless` without a complete
    /// code. It needs about 85 kB of stack.
    pub fn logical(&mut self, k: usize) -> Result<Answer<'_>, Error> {
        self.take(Record::logical(k))
    }

    /// A qubit was lost.
    pub fn lost(&mut self, qubit: usize) -> Result<Answer<'_>, Error> {
        self.take(Record::lost(qubit))
    }

    /// A Z row fired: about the X half.
    pub fn lit_z(&mut self, row: usize) -> Result<Answer<'_>, Error> {
        self.take(Record::lit_z(row))
    }

    /// An X row fired: about the Z half.
    pub fn lit_x(&mut self, row: usize) -> Result<Answer<'_>, Error> {
        self.take(Record::lit_x(row))
    }

    /// A Z row could not be read: the X half is found without it. For the Z half it is a row of the
    /// other kind all the same.
    pub fn unread_z(&mut self, row: usize) -> Result<Answer<'_>, Error> {
        self.take(Record::unread_z(row))
    }

    /// An X row could not be read: the Z half is found without it. For the X half it is a row of
    /// the other kind all the same.
    pub fn unread_x(&mut self, row: usize) -> Result<Answer<'_>, Error> {
        self.take(Record::unread_x(row))
    }

    /// Reports both halves and ends the shot. `raw::most::BUDGET` and `raw::most::LIMIT` unless you
    /// know better.
    pub fn decode(&mut self, budget: usize, limit: usize) -> Result<Report<'_>, Error> {
        match self.take(Record::decode(budget, limit))? {
            Answer::Decoded(report) => Ok(report),
            _ => Err(Error::Unknown { what: "report", number: answer::TAKEN }),
        }
    }

    /// The last 256 reports counted, those since the last `sizes` that was not refused; all of them
    /// if they are fewer. A refused record does not enter, and nothing but that `sizes` empties the
    /// window: a code that is dropped by a refusal leaves it. A read changes nothing.
    pub fn counts(&self) -> Result<Counts, Error> {
        // `new` compared the versions.
        Counts::new(unsafe { lent::window(self.state, &self.window) })
    }

    /// Takes a record.
    pub fn take(&mut self, record: Record) -> Result<Answer<'_>, Error> {
        self.record(record.bytes())
    }

    /// Takes a record's bytes from elsewhere.
    pub fn record(&mut self, bytes: &[u8]) -> Result<Answer<'_>, Error> {
        let mut lent = Lent {
            flat: &mut self.flat,
            ends: &mut self.ends,
            shot: &mut self.shot,
            window: &mut self.window,
            work: &mut self.work,
            x: self.x.lend(),
            z: self.z.lend(),
        };
        // `new` compared the versions.
        let reply = unsafe { lent::step(self.state, &mut lent, bytes) };
        self.state = reply.state;
        match reply.answer {
            answer::TAKEN => Ok(Answer::Taken),
            answer::COMPLETE => {
                let State { n, x, z, .. } = reply.state;
                Ok(Answer::Complete(Sizes { n, x, z }))
            }
            answer::DECODED => {
                let n = reply.state.n;
                let (x, z) = (self.x.half(reply.x, n)?, self.z.half(reply.z, n)?);
                Ok(Answer::Decoded(Report { x, z }))
            }
            answer::REFUSED => Err(Error::Refused(Refusal::try_from(reply.refusal)?)),
            number => Err(Error::Unknown { what: "answer", number }),
        }
    }
}
