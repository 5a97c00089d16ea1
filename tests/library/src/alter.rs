//! Ways to overwrite the lists of code, shot and reports, and the state.

use crate::lengths::{FLAT, NAMES, SHOT, WINDOW};
use crate::watch;
use judge::random::Random;
use rack::raw::State;

/// Overwrites a list's bytes, or a part of them.
pub fn list(random: &mut Random, list: usize, bytes: &mut [u8]) {
    let way = random.below(4);
    let middle = 2 * random.below(bytes.len() / 2);
    let from = random.pick(&[0, middle]);
    watch::tell(|| format!("{} altered from byte {from} on, way {way}", NAMES[list]));
    let part = &mut bytes[from..];
    match way {
        0 => part.chunks_mut(8).for_each(|chunk| {
            chunk.copy_from_slice(&random.word().to_ne_bytes()[..chunk.len()]);
        }),
        1 => (0..random.within(1, 4)).for_each(|_| {
            part[random.below(part.len())] ^= 1 << random.below(8);
        }),
        2 => part.fill(random.pick(&[0, u8::MAX])),
        _ if list == SHOT => part.fill_with(|| random.pick(&[0, 1, 1, 2, 2, 3])),
        _ => plausible(random, list, part),
    }
}

/// Qubits of some code for `flat`, ends of rows that are plausible one by one for `ends`, words and small counts for
/// `window`.
fn plausible(random: &mut Random, list: usize, part: &mut [u8]) {
    let shape = random.below(5);
    let mut end = 0;
    for (at, element) in part.chunks_exact_mut(2).enumerate() {
        end = match (list, shape) {
            (FLAT, _) => random.below(1100),
            (WINDOW, _) => random.below(7),
            (_, 0) => end + random.within(0, 16),
            (_, 1) => random.below(16_400),
            (_, 2) => random.within(16_380, 16_390),
            (_, 3) => random.below(17),
            _ => at % 2 * random.pick(&[0, 200, 16_384]),
        };
        element.copy_from_slice(&(end as u16).to_ne_bytes());
    }
}

pub fn state(random: &mut Random, old: State) -> State {
    let new = match random.below(6) {
        0 => of(|_| random.word() as u16),
        1 => flipped(random, old),
        2 => of(|_| random.pick(&[0, u16::MAX])),
        _ => fitting(random, old),
    };
    watch::tell(|| format!("state altered: {new:?}"));
    new
}

/// A state whose parts are given by their places.
fn of(mut part: impl FnMut(usize) -> u16) -> State {
    let [phase, clash, spoiled, stale] = [0, 1, 2, 3].map(|at| part(at) as u8);
    let [n, x, z, rows, reports] = [4, 5, 6, 7, 8].map(part);
    State { phase, clash, spoiled, stale, n, x, z, rows, reports }
}

/// One bit of one part changed.
fn flipped(random: &mut Random, old: State) -> State {
    let State { phase, clash, spoiled, stale, n, x, z, rows, reports } = old;
    let flags = [phase, clash, spoiled, stale].map(u16::from);
    let mut parts = [&flags[..], &[n, x, z, rows, reports]].concat();
    parts[random.below(9)] ^= 1 << random.below(16);
    of(|at| parts[at])
}

/// A state of some code, or almost.
fn fitting(random: &mut Random, old: State) -> State {
    let n = random.pick(&[old.n, 1, 4, 64, 1023, 1024, 1024, 1025]);
    let mut rows = || random.pick(&[0, 1, 2, 40, 511, 512, 512, 513]);
    let (x, z) = (rows(), rows());
    State {
        phase: random.pick(&[1, 1, 2, 2, 2, 3]),
        clash: random.pick(&[0, 1]),
        spoiled: random.pick(&[0, 0, 0, 1]),
        stale: random.pick(&[0, 0, 1, 255]),
        n,
        x: random.pick(&[old.x, x]),
        z: random.pick(&[old.z, z]),
        rows: random.pick(&[old.rows, x, x + z, (x + z).wrapping_sub(1), 1023, u16::MAX]),
        reports: random.pick(&[old.reports, 1, 255, 256, 257, 511, 512, u16::MAX]),
    }
}
