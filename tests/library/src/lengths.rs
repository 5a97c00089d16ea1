//! How long each of the eleven lists is in a call.

use judge::form::WORDS;
use judge::random::Random;
use judge::stream::Lent;
use rack::raw::least;

/// The lists in the order of a call: code, shot and window, work, and a decode's six.
pub const NAMES: [&str; 11] = [
    "flat",
    "ends",
    "shot",
    "window",
    "work",
    "x_marks",
    "x_forms",
    "x_correction",
    "z_marks",
    "z_forms",
    "z_correction",
];

/// The bytes of an element.
pub const WIDTHS: [usize; NAMES.len()] = [2, 2, 1, 2, 8, 1, 8, 1, 1, 8, 1];

/// The lists that hold code, shot and reports, and how many they are; then comes the work list, then
/// the six.
pub const FLAT: usize = 0;
pub const ENDS: usize = 1;
pub const SHOT: usize = 2;
pub const WINDOW: usize = 3;
pub const HELD: usize = 4;
pub const WORK: usize = 4;
pub const SIX: usize = 5;

/// The least lengths of `flat`, `ends`, `shot`, `window` and `work`.
pub const LEAST: [usize; SIX] = [least::FLAT, least::ENDS, least::SHOT, least::WINDOW, least::WORK];

/// How many elements each of the six has for a qubit.
pub const EACH: [usize; NAMES.len() - SIX] = [1, WORDS, 1, 1, WORDS, 1];

/// How many times its least length a list can have.
pub const TIMES: usize = 4;

/// The lists' lengths, in elements.
#[derive(Clone)]
pub struct Lengths(pub [usize; NAMES.len()]);

impl Lengths {
    /// The least, the six lists for `n` qubits.
    pub fn least(n: usize) -> Lengths {
        let mut lengths = [0; NAMES.len()];
        lengths[..SIX].copy_from_slice(&LEAST);
        lengths[SIX..].copy_from_slice(&EACH.map(|each| each * n));
        Lengths(lengths)
    }

    /// The least length or somewhat above it.
    pub fn above(random: &mut Random, n: usize) -> Lengths {
        Lengths(Lengths::least(n).0.map(|least| least + random.below(80).saturating_sub(40)))
    }

    /// Some times the least length.
    pub fn longer(random: &mut Random, n: usize) -> Lengths {
        Lengths(Lengths::least(n.max(1)).0.map(|least| least * random.within(2, TIMES)))
    }

    /// One list with another length.
    pub fn with(mut self, list: usize, length: usize) -> Lengths {
        self.0[list] = length;
        self
    }

    /// One list or two below the least length.
    pub fn shortened(mut self, random: &mut Random, n: usize) -> Lengths {
        let least = Lengths::least(n.max(1)).0;
        for _ in 0..random.within(1, 2) {
            let list = random.below(NAMES.len());
            let any = random.below(least[list]);
            self.0[list] = random.pick(&[0, any, least[list] / WORDS, least[list] - 1]);
        }
        self
    }

    /// What the model is told of them.
    pub fn lent(&self) -> Lent {
        let short = self.0.iter().zip(LEAST).any(|(&length, least)| length < least);
        let shortest = |each: usize| {
            let lists = self.0[SIX..].iter().zip(EACH).filter(|(_, its)| *its == each);
            lists.map(|(&length, _)| length).min().expect("lists of both kinds")
        };
        Lent { short, room: shortest(1), forms: shortest(WORDS) }
    }

    /// Names the lists below their least length, for the trace.
    pub fn short(&self, n: usize) -> String {
        let least = Lengths::least(n).0;
        let short = (0..NAMES.len()).filter(|&list| self.0[list] < least[list]);
        short.map(|list| format!("  {}: {} elements", NAMES[list], self.0[list])).collect()
    }
}
