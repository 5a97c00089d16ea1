//! Document 01's bench shots and its printed example, and shots with unread rows.

use crate::caller::Caller;
use crate::lengths::Lengths;
use crate::session::Session;
use crate::{watch, Checked};
use judge::bench::{all, Bench};
use judge::judge::{ensure, Judged};
use judge::random::Random;
use judge::shots::{say, NAMES};
use rack::raw::{answer, Reply};

pub fn bench(seed: u64, _shots: usize) -> Checked {
    let mut session = Session::new(Random::new(seed).word(), 1);
    all().iter().try_for_each(|bench| shot(&mut session, bench))?;
    Ok(session.caller.tally.to_string())
}

/// The lines that a shot must have.
fn shot(session: &mut Session, bench: &Bench) -> Judged {
    watch::case();
    session.restart();
    let mut printed = Vec::new();
    for record in &bench.records {
        let lengths = session.lengths(record, Lengths::above);
        let reply = session.call(record, &lengths)?;
        printed.extend(lines(&session.caller, record[0], &reply));
    }
    bench.lines.iter().try_for_each(|(at, line)| {
        ensure(printed.get(*at) == Some(line), || format!("{}: no line {line}", bench.name))
    })
}

fn lines(caller: &Caller, kind: u8, reply: &Reply) -> Vec<String> {
    let state = reply.state;
    match reply.answer {
        answer::COMPLETE => vec![format!("code {} {} {}", state.n, state.x, state.z)],
        answer::REFUSED => vec![format!("refused {} {kind}", reply.refusal)],
        _ => {
            let reports = caller.reports(reply).into_iter().flatten();
            NAMES.iter().zip(reports).map(|(&name, report)| say(name, &report.said())).collect()
        }
    }
}
