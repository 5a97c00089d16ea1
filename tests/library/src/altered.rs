//! Calls over altered lists and an altered state end, within their lists, and a read counts what the
//! window holds.

use crate::alter;
use crate::lengths::{Lengths, LEAST, WIDTHS, WINDOW};
use crate::session::Session;
use crate::{watch, Checked};
use judge::codes::{QUBITS, ROWS, WEIGHT};
use judge::families::Family;
use judge::generate::{records, Mix};
use judge::half::Asked;
use judge::judge::{ensure, Judged};
use judge::random::Random;
use judge::records as made;
use judge::shot::KINDS;
use judge::stream::{Record, LOGICAL, X_ROW, Z_ROW};
use rack::raw::{answer, phase, refusal, Reply};

const SMALL: [Family; 4] = [Family::Bench, Family::Pair, Family::Surface, Family::Joined];

/// Streams with lists and state altered between calls, each followed by a fresh start that agrees
/// with the model.
pub fn altered(seed: u64, shots: usize) -> Checked {
    let mut random = Random::new(seed);
    let mut session = Session::new(random.word(), 1);
    let mut done = Done::default();
    for _ in 0..shots.div_ceil(20) {
        watch::case();
        session.restart();
        run(&mut session, &mut random, &mut done)?;
        let mix = Mix { trouble: 5, wild: true, family: None };
        session.begin();
        session.calls(&records(&mut random, 2, mix), Lengths::above)?;
    }
    let tally = session.caller.tally;
    ensure(done.met() || !tally.enough(), || format!("not all was met: {done:?}"))?;
    Ok(format!("{tally}; while altered {done:?}"))
}

/// What was done while lists or state were altered.
#[derive(Default, Debug)]
struct Done {
    decodes: usize,
    /// Records of kind 8 that agreed or differed.
    compared: usize,
}

impl Done {
    fn add(&mut self, record: &[u8], reply: &Reply) {
        let agreed = reply.answer == answer::TAKEN && record[0] == LOGICAL;
        self.compared += usize::from(agreed || reply.refusal == refusal::ENCODED);
        self.decodes += usize::from(reply.answer == answer::DECODED);
    }

    fn met(&self) -> bool {
        self.decodes.min(self.compared) > 0
    }
}

/// A stream with lists or state altered and some records replaced.
fn run(session: &mut Session, random: &mut Random, done: &mut Done) -> Judged {
    let [lists, state, other] = random.pick(&[[20, 0, 0], [0, 20, 50], [10, 20, 80]]);
    let mix = Mix { trouble: 5, wild: true, family: Some(random.pick(&SMALL)) };
    let Session { caller, reader, .. } = session;
    for record in records(random, 4, mix) {
        let record = if random.percent(other) { any_record(random) } else { record };
        let ready = caller.state.phase == phase::READY;
        for (list, bytes) in caller.held.iter_mut().enumerate() {
            if random.percent(if ready { lists } else { lists / 4 }) {
                alter::list(random, list, bytes);
            }
        }
        if random.percent(if ready { state } else { 4 * state }) {
            caller.state = alter::state(random, caller.state);
        }
        let lengths = Lengths::above(random, QUBITS);
        let short = random.percent(5).then(|| lengths.clone().shortened(random, QUBITS));
        let before = caller.state;
        let reply = caller.call(&record, &short.unwrap_or(lengths))?;
        done.add(&record, &reply);
        reader.read(caller.state, &caller.held[WINDOW][..LEAST[WINDOW] * WIDTHS[WINDOW]])?;
        if reply.refusal == refusal::ENCODED && random.percent(80) {
            // Rows that were altered seldom encode what is sent: the code is taken up again.
            caller.state = before;
        }
    }
    Ok(())
}

/// A record of a known kind with any numbers, or any bytes.
fn any_record(random: &mut Random) -> Record {
    let kind = random.pick(&KINDS);
    let row = random.pick(&[X_ROW, Z_ROW]);
    match random.below(20) {
        0 => made::sizes(number(random, QUBITS), number(random, ROWS), number(random, ROWS)),
        1 => made::row(row, &random.subset(QUBITS, 1, WEIGHT)),
        2 => (0..random.below(40)).map(|_| random.word() as u8).collect(),
        3..=9 => made::number(kind, number(random, QUBITS)),
        10 => made::logical(number(random, QUBITS)),
        _ => made::decode(Asked { budget: number(random, 255), limit: number(random, 65_535) }),
    }
}

/// A number up to `end`, often an end.
fn number(random: &mut Random, end: usize) -> usize {
    let any = random.within(0, end);
    random.pick(&[0, 1, end - 1, end, any, any])
}
