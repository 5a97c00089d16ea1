//! The reports since the last kind 1 that was not refused, every one of them, and what a call may
//! change of those that are kept.

use crate::lengths::{LEAST, WIDTHS, WINDOW};
use judge::judge::{ensure, Judged};
use rack::raw::{answer, kind, Counts, Half, HalfCounts, Reply, State};

/// So many reports are kept.
const LAST: usize = 256;

/// The elements of a half, and of a report.
const HALF: usize = 5;
const REPORT: usize = 2 * HALF;

/// The X half and the Z half of each, the oldest first.
#[derive(Default)]
pub struct Reports(Vec<[Half; 2]>);

impl Reports {
    /// A record and its answer.
    pub fn take(&mut self, record: &[u8], reply: &Reply) {
        if begins(record, reply) {
            self.0.clear();
        }
        if reply.answer == answer::DECODED {
            self.0.push([reply.x, reply.z]);
        }
    }

    pub fn count(&self) -> usize {
        self.0.len()
    }

    /// Their number in a state, which is 256 again after 511.
    pub fn number(&self) -> u16 {
        let count = self.0.len();
        (if count < LAST { count } else { LAST + count % LAST }) as u16
    }

    /// A fresh count over the last 256.
    pub fn counts(&self) -> Counts {
        let last = &self.0[self.0.len().saturating_sub(LAST)..];
        let [x, z] = [0, 1].map(|half| counted(last.iter().map(|halves| halves[half])));
        Counts { refusal: 0, x, z }
    }
}

/// Whether a record is a kind 1 that is not refused.
fn begins(record: &[u8], reply: &Reply) -> bool {
    record.first() == Some(&kind::SIZES) && reply.answer != answer::REFUSED
}

fn counted(halves: impl Iterator<Item = Half> + Clone) -> HalfCounts {
    let said = |word: u16| halves.clone().filter(|half| half.word == word).count() as u32;
    let sum = |count: fn(Half) -> u16| halves.clone().map(count).map(u32::from).sum();
    let [certain, unsure, none, spent, stopped] = [1, 2, 3, 4, 5].map(said);
    let (turns, guesses) = (sum(|half| half.turns), sum(|half| half.guesses));
    let live = sum(|half| half.live);
    HalfCounts { certain, unsure, none, spent, stopped, turns, guesses, live }
}

/// A count over the first places of a list that is long enough, whatever they hold.
pub fn held(reports: u16, list: &[u8]) -> Counts {
    let numbers: Vec<u16> =
        list.chunks_exact(2).map(|bytes| u16::from_ne_bytes([bytes[0], bytes[1]])).collect();
    let places = numbers.chunks_exact(REPORT).take(LAST.min(reports.into()));
    let half = |from: usize| counted(places.clone().map(move |place| read(&place[from..])));
    Counts { refusal: 0, x: half(0), z: half(HALF) }
}

fn read(numbers: &[u16]) -> Half {
    let [word, fixed, turns, guesses, live] = [0, 1, 2, 3, 4].map(|at| numbers[at]);
    Half { word, fixed, turns, guesses, live }
}

/// Puts a report to the place that a number of reports before it gives.
pub fn put(list: &mut [u8], reports: u16, reply: &Reply) {
    let numbers = [reply.x, reply.z].into_iter().flat_map(|half| {
        let Half { word, fixed, turns, guesses, live } = half;
        [word, fixed, turns, guesses, live]
    });
    let bytes: Vec<u8> = numbers.flat_map(u16::to_ne_bytes).collect();
    let from = usize::from(reports) % LAST * bytes.len();
    list[from..][..bytes.len()].copy_from_slice(&bytes);
}

/// Of any state and window: a report enters at its place, and nothing else is written. Only a report
/// and a kind 1 that is not refused change the number of reports; after one above 511, which no call
/// leaves, it is 256 too.
pub fn entered(state: State, record: &[u8], reply: &Reply, windows: [&[u8]; 2]) -> Judged {
    let [before, after] = windows;
    let mut expected = before.to_vec();
    let mut reports = state.reports;
    if reply.answer == answer::DECODED {
        let enough = before.len() >= LEAST[WINDOW] * WIDTHS[WINDOW];
        ensure(enough, || "a decode on a short window".into())?;
        put(&mut expected, reports, reply);
        reports = if reports < 511 { reports + 1 } else { 256 };
    }
    if begins(record, reply) {
        reports = 0;
    }
    ensure(after == expected, || format!("the window after {reply:?} from {state:?}"))?;
    ensure(reply.state.reports == reports, || {
        format!("{} reports, not {reports}", reply.state.reports)
    })
}
