//! Random and structured losses, unread rows, readings, budgets and limits.

use crate::bits::Bits;
use crate::codes::{odd, set, Code};
use crate::half::{Asked, Row, Word};
use crate::machine::{self, Course};
use crate::random::Random;
use crate::shot::Shot;
use crate::wrong::Wrong;

/// Half of the shots may have unread rows.
pub fn shot(random: &mut Random, code: &Code) -> Shot {
    let mut shot = Shot::empty(code);
    shot.sets[0] = lost(random, code);
    if random.percent(50) {
        for (kind, rows) in [(6, &code.z), (7, &code.x)] {
            *shot.set_mut(kind) = unread(random, rows, &shot.sets[0]);
        }
    }
    if code.n >= 64 && random.percent(20) {
        let brink = brink(random, code, &shot);
        shot.sets[0] = brink.unwrap_or(shot.sets[0].clone());
    }
    for (kind, unread, rows) in [(3, 6, &code.z), (4, 7, &code.x)] {
        let mut lit = lit(random, code.n, rows, &shot.sets[0]);
        lit.remove(shot.set(unread));
        *shot.set_mut(kind) = lit;
    }
    shot
}

fn lost(random: &mut Random, code: &Code) -> Bits {
    let n = code.n;
    let few_rows = 2 * code.x.len().max(code.z.len()) < n;
    match random.below(10) {
        0 => random.pick(&[Bits::new, full])(n),
        1 => some(random, n, 8),
        2 => {
            let mut most = full(n);
            most.add(&some(random, n, 8));
            most
        }
        3 => {
            let (from, to) = (random.below(n + 1), random.below(n + 1));
            Bits::of(n, from.min(to)..from.max(to))
        }
        4 | 5 if few_rows => {
            let density = random.pick(&[85, 90, 95, 98]);
            Bits::of(n, (0..n).filter(|_| random.percent(density)))
        }
        4..=6 => rows(random, code),
        _ => {
            let density = random.pick(&[1, 5, 15, 30, 40, 50, 60, 80]);
            Bits::of(n, (0..n).filter(|_| random.percent(density)))
        }
    }
}

fn full(n: usize) -> Bits {
    Bits::of(n, 0..n)
}

fn some(random: &mut Random, n: usize, most: usize) -> Bits {
    set(n, &random.subset(n, 0, most))
}

/// The qubits of some rows of both kinds, and a few more.
fn rows(random: &mut Random, code: &Code) -> Bits {
    let all: Vec<&Row> = code.x.iter().chain(&code.z).collect();
    let mut lost = some(random, code.n, 3);
    for _ in 0..random.within(0, all.len().min(6)) {
        let row = all[random.below(all.len())];
        row.iter().for_each(|&qubit| lost.insert(qubit));
    }
    lost
}

/// Few, many or all of the rows on one lost qubit, on lost qubits or on any.
fn unread(random: &mut Random, rows: &[Row], lost: &Bits) -> Bits {
    let places = lost.ones();
    let one = (!places.is_empty()).then(|| random.pick(&places));
    let from = random.below(4);
    let may = |row: &Row| match from {
        0 => row.iter().any(|&qubit| one == Some(qubit)),
        1 => row.iter().any(|&qubit| lost.get(qubit)),
        _ => true,
    };
    let chance = random.pick(&[2, 10, 30, 70, 100, 100]);
    let unread = (0..rows.len()).filter(|&at| may(&rows[at]) && random.percent(chance));
    Bits::of(rows.len(), unread)
}

/// The last bit of each word of a form.
const ENDS: [usize; 4] = [63, 127, 191, 255];

/// A set on which guesses up to the end of some word just do or just do not suffice for one half; nothing if they do for all qubits.
fn brink(random: &mut Random, code: &Code, shot: &Shot) -> Option<Bits> {
    let order = random.order(code.n);
    let first = |count: usize| set(code.n, &order[..count]);
    // Of a code with rows of one kind the half that has them.
    let which = match [code.z.is_empty(), code.x.is_empty()] {
        [true, false] => 1,
        [false, true] => 0,
        _ => random.below(2),
    };
    let needs = |count: usize| {
        let mut shot = shot.clone();
        shot.sets[0] = first(count);
        machine::needs(Wrong::Nothing, &shot.halves(code)[which])
    };
    let over = |needs: Course, end: usize| needs.live > end || needs.word == Word::Spent;
    let all = needs(code.n);
    let ends: Vec<usize> = ENDS.into_iter().filter(|&end| over(all, end)).collect();
    let last = *ends.last()?;
    let any = random.pick(&ends);
    let end = random.pick(&[any, last]);
    let (mut enough, mut more) = (0, code.n);
    while more - enough > 1 {
        let middle = (enough + more) / 2;
        *(if over(needs(middle), end) { &mut more } else { &mut enough }) = middle;
    }
    Some(first(random.pick(&[enough, more])))
}

/// Mostly the rows that an error on the lost set fires.
fn lit(random: &mut Random, n: usize, rows: &[Row], lost: &Bits) -> Bits {
    let places = lost.ones().into_iter();
    let mut error = Bits::of(n, places.filter(|_| random.percent(50)));
    let case = random.below(12);
    if case == 0 {
        error.flip(random.below(n));
    }
    let fires = (0..rows.len()).filter(|&at| odd(&rows[at], &error));
    let mut lit = Bits::of(rows.len(), fires);
    match case {
        1 if !rows.is_empty() => lit.flip(random.below(rows.len())),
        2 => lit = Bits::of(rows.len(), (0..rows.len()).filter(|_| random.percent(50))),
        3 => lit = full(rows.len()),
        4 => lit = Bits::new(rows.len()),
        _ => {}
    }
    lit
}

pub fn asked(random: &mut Random, code: &Code, shot: &Shot) -> Asked {
    let lost = shot.sets[0].count();
    let budget = match random.below(10) {
        0 => random.within(0, 1),
        1 => random.within(0, 6),
        2 => random.within(0, 255),
        3 => random.pick(&[63, 64, 65, 127, 128, 191, 192, 254]),
        4 => just(random, code, shot),
        _ => 255,
    };
    let limit = match random.below(8) {
        0 => random.within(0, lost),
        1 => random.within(0, lost.min(4)),
        2 => lost,
        3 => random.within(0, 65_535),
        _ => 65_535,
    };
    Asked { budget, limit }
}

/// A budget that just does or just does not suffice for one half.
fn just(random: &mut Random, code: &Code, shot: &Shot) -> usize {
    let half = &shot.halves(code)[random.below(2)];
    let live = machine::needs(Wrong::Nothing, half).live;
    live.saturating_sub(random.below(2))
}
