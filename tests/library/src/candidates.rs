//! The candidates of halves that were decoded, of such with reasons to be refused, and of any lists.

use crate::asker::Asker;
use crate::lengths::Lengths;
use crate::session::Session;
use crate::{watch, Checked};
use judge::asks::{any, longer, refused};
use judge::candidates::{Ask, MOST_LIVE};
use judge::codes::{Code, QUBITS};
use judge::families::Family;
use judge::form::WORDS;
use judge::half::{mark, Half, Report, Word};
use judge::judge::{ensure, verdict, Judged};
use judge::losses;
use judge::random::Random;
use judge::records;
use judge::shot::Shot;

/// In these families halves with each number of live guesses come often.
const FAMILIES: [Family; 6] =
    [Family::Bench, Family::Pair, Family::Surface, Family::Toric, Family::Product, Family::Bicycle];

/// Sizes around which four times as many elements are more than two bytes hold.
const WIDE: [usize; 4] = [16_383, 16_384, 16_385, 65_535];

pub fn candidates(seed: u64, shots: usize) -> Checked {
    let mut random = Random::new(seed);
    let mut session = Session::new(random.word(), 1);
    let mut asker = Asker::new(random.word(), QUBITS);
    let mut halves = Halves::default();
    for _ in 0..shots.div_ceil(4) {
        let code = random.pick(&FAMILIES).draw(&mut random);
        watch::case();
        session.restart();
        session.calls(&records::load(&code), Lengths::above)?;
        for _ in 0..4 {
            let shot = losses::shot(&mut random, &code);
            let reports = decoded(&mut session, &mut random, &code, &shot)?;
            for (half, report) in shot.halves(&code).iter().zip(&reports) {
                halves.add(report);
                each_once(&mut asker, &mut random, half, report)?;
                refusals(&mut asker, &mut random, report)?;
            }
        }
    }
    for _ in 0..5 * shots {
        let n = random.below(400);
        let n = random.pick(&[0, 1, n, n, n]);
        asker.ask(&any(&mut random, n)).map(drop)?;
    }
    wide(&mut random)?;
    let met = halves.met() && asker.answers.met();
    let said = format!("{}; {halves:?}; {:?}", session.caller.tally, asker.answers);
    ensure(met || !session.caller.tally.enough(), || format!("not all was met: {said}"))?;
    Ok(said)
}

/// The reports of a shot's halves, which agree with the model.
fn decoded(
    session: &mut Session,
    random: &mut Random,
    code: &Code,
    shot: &Shot,
) -> Result<[Report; 2], String> {
    let decode = records::decode(losses::asked(random, code, shot));
    session.calls(&records::shot(shot), Lengths::above)?;
    let lengths = session.lengths(&decode, Lengths::above);
    let reply = session.call(&decode, &lengths)?;
    session.caller.reports(&reply).ok_or("the decode was refused".into())
}

/// All candidates of a half that shows them, on lists as short as they may be and on longer ones.
fn each_once(asker: &mut Asker, random: &mut Random, half: &Half, report: &Report) -> Judged {
    let mut all = Vec::new();
    for ask in Ask::of(report).all() {
        let ask = if random.percent(50) { longer(random, ask) } else { ask };
        all.extend(asker.ask(&ask)?);
    }
    if all.is_empty() {
        return Ok(());
    }
    verdict(half).candidates(half, &report.correction, &all)
}

/// A candidate of any half, of some with every reason to be refused.
fn refusals(asker: &mut Asker, random: &mut Random, report: &Report) -> Judged {
    let ask = Ask::of(report);
    let number = random.word() % (1 << ask.live.min(MOST_LIVE));
    let ask = Ask { number, ..ask };
    let asks = if random.percent(2) { refused(random, &ask) } else { vec![ask] };
    asks.iter().try_for_each(|ask| asker.ask(ask).map(drop))
}

/// More qubits than a code can have. Forms that only two bytes' arithmetic finds long enough are short.
fn wide(random: &mut Random) -> Judged {
    let mut asker = Asker::new(random.word(), u16::MAX.into());
    WIDE.into_iter().try_for_each(|n| {
        let ask = Ask {
            n,
            word: Some(Word::Unsure),
            live: MOST_LIVE,
            marks: vec![mark::PEELED; n],
            forms: (0..WORDS * n).map(|_| random.word()).collect(),
            number: random.word() % (1 << MOST_LIVE),
            room: n,
        };
        let forms = ask.forms[..WORDS * n % 65_536].into();
        asker.ask(&ask).map(drop)?;
        asker.ask(&Ask { forms, ..ask }).map(drop)
    })
}

/// The halves that were decoded: finished ones by their live guesses, at last those with too many.
#[derive(Default, Debug)]
struct Halves {
    live: [usize; MOST_LIVE + 2],
    none: usize,
    spent: usize,
    stopped: usize,
}

impl Halves {
    fn add(&mut self, report: &Report) {
        *match report.word {
            Word::Certain | Word::Unsure => &mut self.live[report.counts.live.min(MOST_LIVE + 1)],
            Word::None => &mut self.none,
            Word::Spent => &mut self.spent,
            Word::Stopped => &mut self.stopped,
        } += 1;
    }

    fn met(&self) -> bool {
        let others = [self.none, self.spent, self.stopped];
        self.live.into_iter().chain(others).all(|count| count > 0)
    }
}
