//! Lists below their least length.

use crate::lengths::{Lengths, NAMES, SIX};
use crate::session::Session;
use crate::{watch, Checked};
use judge::codes::{set, Code};
use judge::families::Family;
use judge::generate::{self, Mix};
use judge::judge::{ensure, Judged};
use judge::known::{four, seven};
use judge::losses;
use judge::random::Random;
use judge::records;
use judge::shot::{alike, size, KINDS};
use judge::stream::{Record, LOGICAL, X_ROW, Z_ROW};
use rack::raw::refusal::SHORT;

/// Each list short at each kind of record, for some codes.
pub fn one_short(seed: u64, shots: usize) -> Checked {
    let mut random = Random::new(seed);
    let mut session = Session::new(random.word(), 1);
    let mut codes = vec![four(), seven()];
    codes.extend((0..shots.div_ceil(500)).map(|_| small(&mut random)));
    for code in &codes {
        each_short(&mut session, &mut random, code)?;
    }
    Ok(session.caller.tally.to_string())
}

/// Streams with refusals of every number, some records tried on short lists first.
pub fn any_short(seed: u64, shots: usize) -> Checked {
    let mut random = Random::new(seed);
    let mut session = Session::new(random.word(), 1);
    for _ in 0..8 {
        let mix = Mix { trouble: 25, wild: true, family: None };
        let stream = generate::records(&mut random, shots.div_ceil(8), mix);
        watch::case();
        session.restart();
        for record in &stream {
            let needed = session.caller.needed(record);
            let lengths = Lengths::above(&mut random, needed);
            if random.percent(25) {
                let short = lengths.clone().shortened(&mut random, needed);
                if session.call(record, &short)?.refusal != SHORT {
                    continue;
                }
            }
            session.call(record, &lengths)?;
        }
    }
    session.caller.tally.all()
}

/// A small code with rows of both kinds.
fn small(random: &mut Random) -> Code {
    loop {
        let code = random.pick(&[Family::Pair, Family::Surface, Family::Product]).draw(random);
        if code.n <= 30 && !code.x.is_empty() && !code.z.is_empty() {
            return code;
        }
    }
}

fn each_short(session: &mut Session, random: &mut Random, code: &Code) -> Judged {
    for kinds in [&[1, X_ROW, Z_ROW, 2, 3, 4, 5][..], &[6, 7, LOGICAL]] {
        let shot = shot(random, code, kinds);
        let records = [records::load(code), shot.clone()].concat();
        for at in places(&records, kinds) {
            for (list, name) in NAMES.iter().enumerate() {
                let least = Lengths::least(code.n).0[list];
                let words = name.ends_with("forms").then_some(code.n);
                let lengths = [least - 1, 0, random.below(least)].into_iter().chain(words);
                for length in lengths {
                    watch::case();
                    let lengths = Lengths::least(code.n).with(list, length);
                    short_at(session, &records, at, list, &lengths)?;
                    session.calls(&shot, Lengths::above)?;
                }
            }
        }
    }
    Ok(())
}

/// A decode with number 0 of each of these kinds in the shot, and the code's logical qubits if they have kind 8.
fn shot(random: &mut Random, code: &Code, kinds: &[u8]) -> Vec<Record> {
    let mut shot = losses::shot(random, code);
    for kind in KINDS.into_iter().filter(|kind| kinds.contains(kind)) {
        let zero = set(size(code, kind), &[0]);
        alike(kind).iter().for_each(|&other| shot.set_mut(other).remove(&zero));
        shot.set_mut(kind).insert(0);
    }
    let asked = losses::asked(random, code, &shot);
    let logical = kinds.contains(&LOGICAL).then(|| records::logical(code.k()));
    let last = logical.into_iter().chain([records::decode(asked)]);
    records::shot(&shot).into_iter().chain(last).collect()
}

/// The first record of each of these kinds, and the last row.
fn places(records: &[Record], kinds: &[u8]) -> Vec<usize> {
    let is = |kind: u8| move |record: &Record| record[0] == kind || record[0] & 96 == kind;
    let first = kinds.iter().map(|&kind| records.iter().position(is(kind)).expect("every kind"));
    let last = records.iter().rposition(is(Z_ROW)).expect("a Z row");
    first.chain([last]).collect()
}

/// A stream whose record `at` meets a short list, and again all lists long enough.
fn short_at(
    session: &mut Session,
    records: &[Record],
    at: usize,
    list: usize,
    lengths: &Lengths,
) -> Judged {
    session.restart();
    session.calls(&records[..at], Lengths::above)?;
    let reply = session.call(&records[at], lengths)?;
    let counts = list < SIX || records[at][0] == 5;
    ensure(counts == (reply.refusal == SHORT), || {
        format!("{} of {}: refusal {}", NAMES[list], lengths.0[list], reply.refusal)
    })?;
    session.calls(&records[if counts { at } else { at + 1 }..], Lengths::above)
}
