//! A half that is finished or none stays so with a larger budget or limit, whatever came before.

use crate::caller::Caller;
use crate::{watch, Checked};
use judge::codes::Code;
use judge::families::Family;
use judge::generate::{self, Mix};
use judge::half::{Asked, Report, Word};
use judge::judge::{ensure, Judged};
use judge::losses;
use judge::random::Random;
use judge::records;
use judge::shot::Shot;

/// Each shot decoded twice, the second time with a budget and a limit no smaller.
pub fn larger(seed: u64, shots: usize) -> Checked {
    let mut random = Random::new(seed);
    let mut callers = [(); 2].map(|()| Caller::new(random.word(), 1));
    let mut halves = Halves::default();
    for _ in 0..shots.div_ceil(8) {
        let code = random.pick(&Family::ALL).draw(&mut random);
        let shot = losses::shot(&mut random, &code);
        let [asked, larger] = two_asked(&mut random, &code, &shot);
        watch::case();
        callers[0].restart();
        let first = decoded(&mut callers[0], &mut random, &code, &shot, asked)?;
        let place = random.below(2);
        if place == 1 {
            callers[1].restart();
        }
        let second = decoded(&mut callers[place], &mut random, &code, &shot, larger)?;
        first.iter().zip(&second).try_for_each(|(first, second)| halves.compare(first, second))?;
    }
    let [first, second] = callers;
    let tally = first.tally.and(&second.tally);
    ensure(halves.met() || !tally.enough(), || format!("not all was met: {halves:?}"))?;
    Ok(format!("{tally}; {halves:?}"))
}

/// A budget and a limit, and others no smaller.
fn two_asked(random: &mut Random, code: &Code, shot: &Shot) -> [Asked; 2] {
    let most = Asked::AMPLE;
    let mut asked = losses::asked(random, code, shot);
    if random.percent(50) {
        asked.budget = random.below(16);
    }
    let budget = random.within(asked.budget, most.budget);
    let limit = random.within(asked.limit, most.limit);
    let budget = random.pick(&[asked.budget, budget, most.budget]);
    let limit = random.pick(&[asked.limit, limit, most.limit]);
    [asked, Asked { budget, limit }]
}

/// How many halves stayed, by the first word, and how many others changed.
#[derive(Default, Debug)]
struct Halves {
    certain: usize,
    unsure: usize,
    none: usize,
    changed: usize,
}

impl Halves {
    fn compare(&mut self, first: &Report, second: &Report) -> Judged {
        let same = first == second;
        let stays = match first.word {
            Word::Certain => &mut self.certain,
            Word::Unsure => &mut self.unsure,
            Word::None => &mut self.none,
            Word::Spent | Word::Stopped => {
                self.changed += usize::from(!same);
                return Ok(());
            }
        };
        *stays += 1;
        ensure(same, || format!("first {first:?}, then {second:?}"))
    }

    fn met(&self) -> bool {
        self.certain.min(self.unsure).min(self.none).min(self.changed) > 0
    }
}

/// The reports of a shot that is decoded after random records and other shots of its code.
fn decoded(
    caller: &mut Caller,
    random: &mut Random,
    code: &Code,
    shot: &Shot,
    asked: Asked,
) -> Result<[Report; 2], String> {
    let mix = Mix { trouble: 40, wild: true, family: Some(Family::Bench) };
    let past = random.below(3);
    let mut stream = generate::records(random, past, mix);
    stream.extend(records::load(code));
    for _ in 0..random.below(3) {
        let other = losses::shot(random, code);
        let spoiling = random.percent(50).then(|| records::number(2, code.n));
        stream.extend(records::shot(&other).into_iter().chain(spoiling));
        stream.push(records::decode(Asked::AMPLE));
    }
    let mut made = records::shot(shot);
    random.shuffle(&mut made);
    stream.extend(made);
    stream.push(records::decode(asked));
    let outcomes = caller.calls(&stream)?;
    let (_, reports) = outcomes.into_iter().last().expect("a decode");
    reports.ok_or("the decode was refused".into())
}
