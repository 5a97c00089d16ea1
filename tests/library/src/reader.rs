//! The read of a window between guard pages: each answer is a count over what the list holds.

use crate::guard::{Region, Side};
use crate::lengths::{LEAST, WIDTHS, WINDOW};
use crate::reports::held;
use crate::watch;
use judge::judge::ensure;
use judge::random::Random;
use rack::lent;
use rack::raw::{self, refusal, Counts, HalfCounts, State};

const NOTHING: HalfCounts = HalfCounts {
    certain: 0,
    unsure: 0,
    none: 0,
    spent: 0,
    stopped: 0,
    turns: 0,
    guesses: 0,
    live: 0,
};

/// The answer for a list that is short.
pub const SHORT: Counts = Counts { refusal: refusal::SHORT as u32, x: NOTHING, z: NOTHING };

/// The most elements that a list can have here.
pub const ROOM: usize = 4 * LEAST[WINDOW];

pub struct Reader {
    random: Random,
    window: Region,
    /// How many reads were refused, and how many not.
    pub short: usize,
    pub read: usize,
}

impl Reader {
    pub fn new(seed: u64) -> Reader {
        assert_eq!(lent::version(), raw::VERSION, "the library's version");
        let window = Region::new(ROOM * WIDTHS[WINDOW]);
        Reader { random: Random::new(seed), window, short: 0, read: 0 }
    }

    /// Two reads of any state and any list, which is read-only: the same answer, and nothing
    /// is written around the list.
    pub fn read(&mut self, state: State, list: &[u8]) -> Result<Counts, String> {
        let length = list.len() / WIDTHS[WINDOW];
        watch::tell(|| format!("a read of {length} elements, {} reports", state.reports));
        self.window.place(list, self.random.pick(&[Side::Start, Side::End]));
        let short = length < LEAST[WINDOW];
        let expected = if short { SHORT } else { held(state.reports, list) };
        for _ in 0..2 {
            // `new` compared the versions.
            let read = |window: &[u16]| watch::call(|| unsafe { lent::window(state, window) });
            let counts = self.window.locked(read);
            ensure(counts == expected, || format!("{counts:?}, the list has {expected:?}"))?;
        }
        ensure(self.window.intact(), || "written outside the window".into())?;
        *(if short { &mut self.short } else { &mut self.read }) += 1;
        Ok(expected)
    }
}
