//! The Rust crate's rack, with lists of its own, against the model.

use crate::report::half;
use crate::reports::Reports;
use crate::{watch, Checked};
use judge::candidates::Ask;
use judge::codes::Code;
use judge::generate::{records, Mix};
use judge::half::Report;
use judge::judge::{ensure, Judged};
use judge::known::seven;
use judge::machine;
use judge::random::Random;
use judge::stream::{self, Lent, Model, Record};
use judge::wrong::Wrong;
use rack::raw::{self, answer, Reply};
use rack::{Answer, Counts, Error, Half, HalfCounts, Rack, Refusal, Sizes, Word};

/// Streams of all families with every refusal but that of short lists: each answer is the model's,
/// and so are the last reports counted after it.
pub fn owned(seed: u64, shots: usize) -> Checked {
    let mut random = Random::new(seed);
    let mut calls = 0;
    for _ in 0..8 {
        let mix = Mix { trouble: 20, wild: true, family: None };
        let stream = records(&mut random, shots.div_ceil(8), mix);
        watch::case();
        let mut rack = Rack::new().map_err(|error| error.to_string())?;
        let mut model = Model::new(Wrong::Nothing);
        let mut reports = Reports::default();
        for record in &stream {
            watch::record(record, String::new);
            reports.take(record, &step(&mut rack, &mut model, record)?);
            counts(&rack, &reports)?;
            calls += 1;
        }
        odd_rows(&mut rack)?;
        halves(&mut rack).map_err(|error| error.to_string())??;
        logical(&mut rack)?;
    }
    Ok(format!("{calls} calls"))
}

/// A record, and of its reply, by the model, the answer and the halves.
fn step(rack: &mut Rack, model: &mut Model, record: &Record) -> Result<Reply, String> {
    let expected = model.step(record, Lent::AMPLE);
    let answer = rack.record(record);
    let mut reply = Reply::default();
    let same = match (&answer, &expected) {
        (Ok(Answer::Taken), stream::Answer::Taken) => true,
        (Ok(Answer::Complete(Sizes { n, x, z })), stream::Answer::Complete(code)) => {
            [*n, *x, *z].map(usize::from) == [code.n, code.x.len(), code.z.len()]
        }
        (Err(Error::Refused(why)), stream::Answer::Refused { number, .. }) => {
            reply.answer = answer::REFUSED;
            why.number() == u16::from(*number)
        }
        (Ok(Answer::Decoded(report)), stream::Answer::Decode(decode)) => {
            let halves = decode.halves().map(|half| machine::decode(&half, decode.asked));
            reply.answer = answer::DECODED;
            [reply.x, reply.z] = [half(&halves[0]), half(&halves[1])];
            let mut told = [report.x, report.z].into_iter().zip(halves);
            told.all(|(half, report)| shows(&half, &report) && candidates(&half, &report))
        }
        _ => false,
    };
    ensure(same, || format!("{answer:?}"))?;
    Ok(reply)
}

/// The last reports counted, and each word's count by the word.
fn counts(rack: &Rack, reports: &Reports) -> Judged {
    let raw::Counts { x, z, .. } = reports.counts();
    let counts = rack.counts();
    let words = |half: HalfCounts| Word::ALL.iter().map(move |&word| half.said(word));
    let fields =
        [x, z].map(|half| [half.certain, half.unsure, half.none, half.spent, half.stopped]);
    let same = [x, z].into_iter().zip(fields).all(|(half, fields)| words(half).eq(fields));
    ensure(same && counts == Ok(Counts { x, z }), || format!("{counts:?}, not {x:?} and {z:?}"))
}

/// Word, counts, lists, and what is made of them.
fn shows(half: &Half, report: &Report) -> bool {
    let said = report.said();
    let counts = [half.fixed, half.turns, half.guesses, half.live].map(usize::from);
    let expected = said.counts;
    let marks = (0..half.marks.len()).map(|qubit| half.mark(qubit).map(|mark| mark.number()));
    let forms = (0..half.marks.len()).map(|qubit| half.form(qubit));
    half.word.name() == report.word.name()
        && counts == [expected.fixed, expected.turns, expected.guesses, expected.live]
        && marks.collect::<Result<Vec<u8>, Error>>().as_ref() == Ok(&report.marks)
        && forms.eq(report.forms.iter().map(|form| &form.0[..]))
        && half.forms == report.forms.iter().flat_map(|form| form.0).collect::<Vec<u64>>()
        && half.correction == report.correction
        && half.flips() == said.flips
}

/// All candidates, one past them, and lists that are short or longer: each answer is the model's.
fn candidates(half: &Half, report: &Report) -> bool {
    let ask = Ask::of(report);
    let count = ask.all().count() as u64;
    let past = Ask { number: count, ..ask.clone() };
    let rooms = [ask.n - 1, ask.n + 3].map(|room| Ask { room, ..ask.clone() });
    half.candidates() == (count > 0).then_some(count)
        && ask.all().chain([past]).chain(rooms).all(|ask| candidate(half, &ask))
}

fn candidate(half: &Half, ask: &Ask) -> bool {
    const BEFORE: u8 = 7;
    let mut list = vec![BEFORE; ask.room];
    let shown = half.candidate(ask.number, &mut list);
    let (first, rest) = list.split_at(ask.n.min(ask.room));
    let kept = |list: &[u8]| list.iter().all(|&element| element == BEFORE);
    match (shown, ask.answer()) {
        (Ok(()), Ok(expected)) => first == expected && kept(rest),
        (Err(Error::Refused(why)), Err(number)) => why.number() == number.into() && kept(&list),
        _ => false,
    }
}

/// Rows of no qubits or too many are refused as unknown, and loading goes on.
fn odd_rows(rack: &mut Rack) -> Judged {
    let unknown = Err(Error::Refused(Refusal::Unknown));
    let sizes = rack.sizes(20, 1, 1);
    ensure(sizes == Ok(Answer::Taken), || format!("sizes: {sizes:?}"))?;
    for weight in [0, 17, 32, 33, 64, 224, 256, 70_000] {
        let row = vec![0; weight];
        let (x, z) = (rack.x_row(&row) == unknown, rack.z_row(&row) == unknown);
        ensure(x && z, || format!("a row of {weight} qubits was taken"))?;
    }
    let rows = [rack.x_row(&[0, 1]).is_ok(), rack.z_row(&[0, 1]).is_ok()];
    ensure(rows == [true, true], || "loading did not go on".into())
}

/// Z rows are about the X half, X rows about the Z half: document 01's P10 with all rows of a kind
/// lit, and unread, which leaves too much to guess.
fn halves(rack: &mut Rack) -> Result<Judged, Error> {
    load(rack, &seven())?;
    let mut shot = |name: fn(&mut Rack, usize) -> Result<Answer<'_>, Error>| {
        [0, 2, 4, 6].into_iter().try_for_each(|qubit| rack.lost(qubit).map(drop))?;
        (0..3).try_for_each(|row| name(rack, row).map(drop))?;
        let report = rack.decode(1, 100)?;
        Ok([report.x.flips(), report.z.flips()])
    };
    let flips = [Rack::lit_z, Rack::lit_x, Rack::unread_z, Rack::unread_x].map(&mut shot);
    let flips = flips.into_iter().collect::<Result<Vec<_>, Error>>()?;
    let (lit, zero, unread) = (Some(vec![6]), Some(vec![]), None);
    let expected = [
        [lit.clone(), zero.clone()],
        [zero.clone(), lit],
        [unread.clone(), zero.clone()],
        [zero, unread],
    ];
    Ok(ensure(flips == expected, || format!("{flips:?} should be {expected:?}")))
}

/// Document 01's Seven encodes 1 qubit; where it is said to encode another number there is none.
fn logical(rack: &mut Rack) -> Judged {
    for other in [0, 2, 4, 257, 65_535, 65_537] {
        load(rack, &seven()).map_err(|error| error.to_string())?;
        let agrees = rack.logical(1) == Ok(Answer::Taken) && rack.lost(0).is_ok();
        let differs = rack.logical(other) == Err(Error::Refused(Refusal::Encoded));
        let codeless = rack.logical(1) == Err(Error::Refused(Refusal::Codeless));
        ensure(agrees && differs && codeless, || format!("1 and {other} logical qubits"))?;
    }
    Ok(())
}

fn load(rack: &mut Rack, code: &Code) -> Result<(), Error> {
    let row = |row: &Vec<usize>| -> Vec<u16> { row.iter().map(|&qubit| qubit as u16).collect() };
    rack.sizes(code.n, code.x.len(), code.z.len())?;
    code.x.iter().try_for_each(|x| rack.x_row(&row(x)).map(drop))?;
    code.z.iter().try_for_each(|z| rack.z_row(&row(z)).map(drop))
}
