//! Which candidates are asked for: all of a half, such as are refused for each reason and for several at once, and any.

use crate::candidates::{judged, Ask, MOST_LIVE};
use crate::families::Family;
use crate::form::WORDS;
use crate::half::{mark, Word};
use crate::judge::Judged;
use crate::losses;
use crate::machine;
use crate::random::Random;
use crate::wrong::Wrong;

/// The ask itself, and the same with a reason for refusal 16, or 15, or 12, or several of these.
pub fn refused(random: &mut Random, ask: &Ask) -> Vec<Ask> {
    let mut asks = vec![ask.clone()];
    for reasons in [many, unfinished, short] {
        asks = asks.iter().flat_map(|ask| reasons(random, ask)).collect();
    }
    asks
}

fn many(random: &mut Random, ask: &Ask) -> Vec<Ask> {
    // 256 and more are few in their lowest byte.
    let above = random.pick(&[10, 63, 64, 65, 255, 256, 264, 65_535]);
    let live = [ask.live, MOST_LIVE + 1, above].map(|live| Ask { live, ..ask.clone() });
    let end = 1u64.checked_shl(ask.live as u32).unwrap_or(u64::MAX);
    let numbers = [end, end.saturating_add(1), 256, 1 << 63, u64::MAX];
    let numbers = numbers.map(|number| Ask { number, ..ask.clone() });
    live.into_iter().chain(numbers).collect()
}

fn unfinished(random: &mut Random, ask: &Ask) -> Vec<Ask> {
    let words = [Some(Word::None), Some(Word::Spent), Some(Word::Stopped), None];
    let words = [ask.word].into_iter().chain(words).map(|word| Ask { word, ..ask.clone() });
    let mut asks: Vec<Ask> = words.collect();
    if ask.n > 0 {
        asks.extend([0, random.below(ask.n), ask.n - 1].map(|open| {
            let mut ask = ask.clone();
            ask.marks[open] = mark::OPEN;
            ask
        }));
    }
    asks
}

fn short(random: &mut Random, ask: &Ask) -> Vec<Ask> {
    let below = |random: &mut Random, least: usize| {
        let any = random.below(least.max(1));
        [least.saturating_sub(1), 0, any].into_iter().filter(move |&length| length < least)
    };
    let (n, words) = (ask.n, WORDS * ask.n);
    let room = below(random, n).map(|room| Ask { room, ..ask.clone() });
    let marks =
        below(random, n).map(|length| Ask { marks: ask.marks[..length].into(), ..ask.clone() });
    let forms = below(random, words).chain((n < words).then_some(n));
    let forms = forms.map(|length| Ask { forms: ask.forms[..length].into(), ..ask.clone() });
    [ask.clone()].into_iter().chain(room).chain(marks).chain(forms).collect()
}

/// With garbage past the n qubits, marks of open qubits too.
pub fn longer(random: &mut Random, mut ask: Ask) -> Ask {
    let [marks, forms, room] = [(); 3].map(|()| random.below(9));
    ask.marks.extend((0..marks).map(|_| random.pick(&[0, 3, mark::OPEN, mark::OPEN, u8::MAX])));
    ask.forms.extend((0..forms).map(|_| random.word()));
    ask.room += room;
    ask
}

/// Any lists of so many qubits, with any word, live count and number.
pub fn any(random: &mut Random, n: usize) -> Ask {
    let most = random.pick(&[MOST_LIVE, 12]);
    let live = random.within(0, most);
    let inside = random.word() % (1 << live);
    let edge = random.pick(&[(1 << live) - 1, 1 << live]);
    let wide = random.word();
    let finished = random.pick(&[Some(Word::Certain), Some(Word::Unsure)]);
    let word = random.pick(&[None, Some(Word::None), Some(Word::Spent), Some(Word::Stopped)]);
    let marks: &[u8] = if random.percent(80) { &[0, 1, 2, 3, 5] } else { &[0, 1, 2, 3, 4, 5] };
    let ask = Ask {
        n,
        word: random.pick(&[finished, finished, finished, word]),
        live,
        marks: (0..n).map(|_| random.pick(marks)).collect(),
        forms: (0..WORDS * n).map(|_| random.word()).collect(),
        number: random.pick(&[inside, inside, inside, edge, wide]),
        room: n,
    };
    match random.below(10) {
        0 => {
            let asks = short(random, &ask);
            asks[random.below(asks.len())].clone()
        }
        1..=4 => ask,
        _ => longer(random, ask),
    }
}

/// After how many shots of a seed a wrong rule gives another answer, and what elimination says of that half's candidates.
pub fn caught(wrong: Wrong, seed: u64, shots: usize) -> Option<(usize, Judged)> {
    let mut random = Random::new(seed);
    (0..shots).find_map(|passed| {
        let code = random.pick(&Family::ALL).draw(&mut random);
        let shot = losses::shot(&mut random, &code);
        let asked = losses::asked(&mut random, &code, &shot);
        shot.halves(&code).iter().find_map(|half| {
            let report = machine::decode(half, asked);
            let ask = Ask::of(&report);
            let others = [longer(&mut random, ask.clone()), any(&mut random, half.n)];
            let mut asks = ask.all().chain(refused(&mut random, &ask)).chain(others);
            let differs = asks.any(|ask| ask.answer() != ask.answer_by(wrong));
            differs.then(|| (passed, judged(wrong, half, &report).unwrap_or(Ok(()))))
        })
    })
}
