//! Long streams of all families, refusals among them, compared with the model call by call.

use crate::lengths::{Lengths, TIMES};
use crate::session::{Draw, Session};
use crate::{watch, Checked};
use judge::families::Family;
use judge::generate::{records, Mix};
use judge::random::Random;

/// Lists somewhat longer than they need to be.
pub fn agrees(seed: u64, shots: usize) -> Checked {
    let session = run(seed, shots, 1, Lengths::above)?;
    session.caller.tally.all_but_short()
}

/// Shots whose guesses are in every word of a form, without refusals, which would spoil most of them.
pub fn words(seed: u64, shots: usize) -> Checked {
    let mut random = Random::new(seed);
    let mut session = Session::new(random.word(), 1);
    let mix = Mix { trouble: 0, wild: false, family: Some(Family::Late) };
    for _ in 0..8 {
        let stream = records(&mut random, shots.div_ceil(8), mix);
        watch::case();
        session.restart();
        session.calls(&stream, Lengths::above)?;
    }
    session.caller.tally.live_in_every_word()
}

/// Lists some times their least length: what is past it stays.
pub fn longer(seed: u64, shots: usize) -> Checked {
    let session = run(seed, shots, TIMES, Lengths::longer)?;
    session.caller.tally.all_but_short()
}

/// For each family a stream of its codes, and one of all codes with more trouble.
fn run(seed: u64, shots: usize, times: usize, draw: Draw) -> Result<Session, String> {
    let mut random = Random::new(seed);
    let mut session = Session::new(random.word(), times);
    let some = shots.div_ceil(2 * Family::ALL.len());
    for family in Family::ALL {
        for (trouble, family) in [(5, Some(family)), (25, None)] {
            let stream = records(&mut random, some, Mix { trouble, wild: true, family });
            watch::case();
            session.restart();
            session.calls(&stream, draw)?;
        }
    }
    Ok(session)
}
