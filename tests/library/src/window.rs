//! The last 256 reports counted, over long streams of decodes with reads anywhere, and over any
//! state and any list.

use crate::lengths::{Lengths, LEAST, SIX, WINDOW};
use crate::reader::{Reader, ROOM};
use crate::session::Session;
use crate::{watch, Checked};
use judge::codes::Code;
use judge::families::Family;
use judge::half::Asked;
use judge::judge::{ensure, Judged};
use judge::known::seven;
use judge::losses;
use judge::random::Random;
use judge::records;
use judge::strays::bad_sizes;
use judge::stream::{Record, X_ROW, Z_ROW};
use rack::raw::State;

/// Families with small codes, and the most qubits of those that are taken, so that thousands of decodes take little
/// time.
const FAMILIES: [Family; 3] = [Family::Bench, Family::Pair, Family::Surface];
const SMALL: usize = 40;

/// How many of a hundred shots come after one kind 1, code by code.
const RUNS: [usize; 9] = [70, 0, 32, 14, 1, 26, 2, 0, 1];

/// So many shots should meet everything.
const ENOUGH: usize = 2_000;

/// The numbers that no record is refused with.
const UNUSED: [usize; 5] = [10, 13, 14, 15, 16];

/// One service, never restarted, through all codes; then any lists.
pub fn window(seed: u64, shots: usize) -> Checked {
    let mut stream = Stream::new(seed);
    watch::case();
    stream.session.restart();
    stream.between_codes()?;
    for (at, share) in RUNS.into_iter().enumerate() {
        let code = stream.load()?;
        for _ in 0..(shots * share).div_ceil(100) {
            stream.shot(&code)?;
        }
        stream.leave(&code, at)?;
        stream.between_codes()?;
    }
    watch::case();
    for _ in 0..shots {
        let (state, list) = any(&mut stream.random);
        stream.session.reader.read(state, &list)?;
    }
    stream.said(shots >= ENOUGH)
}

struct Stream {
    random: Random,
    session: Session,
    /// Reads after a record that was not refused, and after each refusal.
    reads: [usize; 18],
    /// The most reports that came after one kind 1.
    most: usize,
}

impl Stream {
    fn new(seed: u64) -> Stream {
        let mut random = Random::new(seed);
        let session = Session::new(random.word(), 1);
        Stream { random, session, reads: [0; 18], most: 0 }
    }

    /// A record on lists that are long enough.
    fn send(&mut self, record: &[u8]) -> Judged {
        let lengths = self.session.lengths(record, Lengths::above);
        self.send_on(record, &lengths)
    }

    /// A record on a list that is short for every record, mostly the window.
    fn send_short(&mut self, record: &[u8]) -> Judged {
        let random = &mut self.random;
        let list = random.below(SIX);
        let list = random.pick(&[list, WINDOW, WINDOW]);
        let any = random.below(LEAST[list]);
        let length = random.pick(&[0, any, LEAST[list] - 1]);
        let needed = self.session.caller.needed(record);
        let lengths = Lengths::above(random, needed).with(list, length);
        self.send_on(record, &lengths)
    }

    /// A record, and some reads after it.
    fn send_on(&mut self, record: &[u8], lengths: &Lengths) -> Judged {
        let reply = self.session.call(record, lengths)?;
        self.most = self.most.max(self.session.reports());
        let least = LEAST[WINDOW];
        let lengths = [least, least, least, least + 1, least + 40, least - 1, least - 10, 1, 0];
        for _ in 0..self.random.below(3) + usize::from(reply.refusal > 0) {
            self.session.read(self.random.pick(&lengths))?;
            self.reads[usize::from(reply.refusal)] += 1;
        }
        Ok(())
    }

    /// A code, after others that are dropped while they are loading, by refusals 4, 5 and 6.
    fn load(&mut self) -> Result<Code, String> {
        let drawn = self.random.pick(&FAMILIES).draw(&mut self.random);
        let code = if drawn.n <= SMALL { drawn } else { seven() };
        let odd = [records::row(Z_ROW, &[0]), records::row(X_ROW, &[seven().n])];
        let dropped = odd.map(|row| vec![records::load(&seven())[0].clone(), row]);
        for load in dropped.into_iter().chain([clash(), records::load(&code)]) {
            for record in &load {
                if self.random.percent(10) {
                    self.send_short(record)?;
                    self.send(&records::number(2, 0))?;
                }
                self.send(record)?;
            }
        }
        Ok(code)
    }

    /// Records of a shot, some of them refused but none that drops the code, and a decode.
    fn shot(&mut self, code: &Code) -> Judged {
        let shot = losses::shot(&mut self.random, code);
        let decode = records::decode(losses::asked(&mut self.random, code, &shot));
        let mut made = records::shot(&shot);
        if self.random.percent(10) {
            let at = self.random.within(0, made.len());
            made.insert(at, disturbing(&mut self.random, code));
        }
        if self.random.percent(4) {
            made.extend(made.first().cloned());
        }
        made.iter().try_for_each(|record| self.send(record))?;
        if self.random.percent(5) {
            self.send_short(&records::load(code)[0])?;
        }
        if self.random.percent(5) {
            // It ends the shot: the next decode is of an empty one.
            self.send_short(&decode)?;
        }
        self.send(&decode)
    }

    /// In turn drops the code by refusal 17, 3 or 4, replaces it by one without rows, or leaves it.
    fn leave(&mut self, code: &Code, turn: usize) -> Judged {
        let record = match turn % 5 {
            0 => records::logical(code.k() + 1),
            1 => bad_sizes(&mut self.random),
            2 => records::row(self.random.pick(&[X_ROW, Z_ROW]), &[0]),
            3 => records::sizes(3, 0, 0),
            _ => records::logical(code.k()),
        };
        self.send(&record)
    }

    /// Records that are refused, but for those that an earlier code takes.
    fn between_codes(&mut self) -> Judged {
        for _ in 0..self.random.within(5, 15) {
            let record = match self.random.below(9) {
                0 => bad_sizes(&mut self.random),
                1 => records::sizes(4, 1, 1)[..6].to_vec(),
                2 => records::row(self.random.pick(&[X_ROW, Z_ROW]), &[0]),
                3 => records::number(self.random.pick(&[2, 3, 4, 6, 7]), 0),
                4 => records::logical(0),
                5 => vec![self.random.pick(&[0, 9, 255])],
                6 => Record::new(),
                _ => records::decode(Asked::AMPLE),
            };
            self.send(&record)?;
            self.send_short(&records::sizes(4, 1, 1))?;
        }
        Ok(())
    }

    /// What was met, and whether it was everything where it should be.
    fn said(&self, enough: bool) -> Checked {
        let Reader { short, read, .. } = self.session.reader;
        let tally = &self.session.caller.tally;
        let reads = format!("{read} reads and {short} of short lists");
        let said = format!("{tally}; up to {} reports; {reads}", self.most);
        let each = (0..18).all(|number| self.reads[number] > 0 || UNUSED.contains(&number));
        let met = each && self.most > 1_024;
        ensure(met || !enough, || format!("not all was met: {said}, {:?}", self.reads))?;
        Ok(said)
    }
}

/// A code whose rows do not commute.
fn clash() -> Vec<Record> {
    records::load(&Code { n: 3, x: vec![vec![0, 1]], z: vec![vec![1, 2]] })
}

/// A record that spoils the shot, or is taken.
fn disturbing(random: &mut Random, code: &Code) -> Record {
    match random.below(6) {
        0 => records::number(2, code.n),
        1 => records::number(random.pick(&[3, 6]), code.z.len()),
        2 => vec![random.pick(&[0, 9, 10, 31, 255])],
        3 => records::sizes(code.n, 0, 0)[..random.below(6)].to_vec(),
        _ => records::logical(code.k()),
    }
}

/// Any state and a list of any length with anything in it.
fn any(random: &mut Random) -> (State, Vec<u8>) {
    let least = LEAST[WINDOW];
    let length = random.below(ROOM);
    let length = random.pick(&[0, 1, least - 10, least - 1, least, least, least + 1, length]);
    let word = random.word() as u16;
    let reports = random.pick(&[0, 1, 255, 256, 257, 511, 512, u16::MAX, word]);
    let [phase, clash, spoiled, stale] = (random.word() as u32).to_ne_bytes();
    let [n, x, z, rows] = [(); 4].map(|()| random.word() as u16);
    let way = random.below(4);
    let mut element = || match way {
        0 => random.below(7) as u16,
        1 => u16::MAX,
        // In their lowest byte words.
        2 => random.pick(&[0, 256, 512]) + random.below(7) as u16,
        _ => random.word() as u16,
    };
    let list = (0..length).flat_map(|_| element().to_ne_bytes()).collect();
    (State { phase, clash, spoiled, stale, n, x, z, rows, reports }, list)
}
