//! Kind 8 in shots of every sort: with the code's k and with others, on lists that are long enough and on short ones.

use crate::lengths::{Lengths, LEAST, NAMES, SIX};
use crate::session::Session;
use crate::{watch, Checked};
use judge::codes::Code;
use judge::families::Family;
use judge::half::Asked;
use judge::judge::{ensure, Judged};
use judge::known::{four, seven, toric};
use judge::losses;
use judge::random::Random;
use judge::records;
use judge::strays::miscounted;
use judge::stream::Record;
use rack::raw::refusal::{ENCODED, SHORT};

/// What the shot has become when numbers are compared in it.
#[derive(Clone, Copy, PartialEq)]
enum Sort {
    Empty,
    Open,
    Spoiled,
    /// Its list still holds the shot that was decoded.
    Stale,
}

pub fn logical(seed: u64, shots: usize) -> Checked {
    let mut random = Random::new(seed);
    let mut session = Session::new(random.word(), 1);
    let mut codes = vec![four(), seven(), toric(3), repeated(toric(3)), Code::new(5)];
    let drawn = (0..shots.div_ceil(100)).map(|_| random.pick(&Family::ALL).draw(&mut random));
    codes.extend(drawn);
    for code in &codes {
        let (k, rows) = (code.k(), code.x.len() + code.z.len());
        let other = miscounted(&mut random, code);
        let sorts = [Sort::Empty, Sort::Open, Sort::Spoiled, Sort::Stale];
        let others = [k + 1, k.wrapping_sub(1), code.n.wrapping_sub(rows), other];
        for (sort, other) in sorts.into_iter().zip(others) {
            // One that is k by chance is replaced.
            let other = if other == k { k + 1 } else { other };
            watch::case();
            in_shot(&mut session, &mut random, code, sort, [k, other])?;
        }
    }
    session.compared()?;
    Ok(session.caller.tally.to_string())
}

/// The code with each kind's first row once more.
fn repeated(mut code: Code) -> Code {
    for rows in [&mut code.x, &mut code.z] {
        rows.push(rows[0].clone());
    }
    code
}

/// Compares the code's k and another number in a shot, which is decoded in between.
fn in_shot(
    session: &mut Session,
    random: &mut Random,
    code: &Code,
    sort: Sort,
    [k, other]: [usize; 2],
) -> Judged {
    let [before, after] = shot(random, code, sort);
    session.restart();
    session.calls(&records::load(code), Lengths::above)?;
    session.calls(&before, Lengths::above)?;
    without_the_six(session, random, k, 0)?;
    for sent in [k, other] {
        on_short_lists(session, random, sent)?;
    }
    session.calls(&after, Lengths::above)?;
    session.calls(&before, Lengths::above)?;
    without_the_six(session, random, other, ENCODED)?;
    session.calls(&after, Lengths::above)
}

/// The records of a shot before numbers are compared and after it, with a loss on either side and the decode.
fn shot(random: &mut Random, code: &Code, sort: Sort) -> [Vec<Record>; 2] {
    let mut shot = losses::shot(random, code);
    shot.sets[0].insert(0);
    let mut before = records::shot(&shot);
    let decode = records::decode(losses::asked(random, code, &shot));
    match sort {
        Sort::Empty => [Vec::new(), [before, vec![decode]].concat()],
        Sort::Stale => {
            let all = records::decode(Asked::AMPLE);
            [[before.clone(), vec![all]].concat(), [before, vec![decode]].concat()]
        }
        Sort::Open | Sort::Spoiled => {
            let mut after = before.split_off(random.within(1, before.len()));
            before.extend((sort == Sort::Spoiled).then(|| records::number(2, code.n)));
            after.push(decode);
            [before, after]
        }
    }
}

/// Each of the five lists below its least length: refusal 12, whatever number is sent.
fn on_short_lists(session: &mut Session, random: &mut Random, sent: usize) -> Judged {
    for (list, least) in LEAST.into_iter().enumerate() {
        for length in [least - 1, random.below(least)] {
            let lengths = Lengths::above(random, 0).with(list, length);
            let reply = session.call(&records::logical(sent), &lengths)?;
            ensure(reply.refusal == SHORT, || {
                format!("{} of {length}: refusal {}", NAMES[list], reply.refusal)
            })?;
        }
    }
    Ok(())
}

/// The five lists as short as they may be, and nothing in the six.
fn without_the_six(
    session: &mut Session,
    random: &mut Random,
    sent: usize,
    refusal: u16,
) -> Judged {
    let mut lengths = Lengths::least(0);
    lengths.0[SIX + random.below(NAMES.len() - SIX)] = random.below(5);
    let reply = session.call(&records::logical(sent), &lengths)?;
    let same = reply.refusal == refusal;
    ensure(same, || format!("{sent} logical qubits: refusal {}", reply.refusal))
}
