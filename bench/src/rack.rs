//! The library, with lists of its own.

use judge::half::{Counts, Said, Word};
use rack::lent::{fresh, step, version, Lent, Three};
use rack::raw::{answer, least, Half, Reply, State, VERSION};

/// One for a whole run: its lists are never given back.
pub struct Rack {
    state: State,
    lent: Lent<'static>,
}

fn list<T: Clone + Default>(length: usize) -> &'static mut [T] {
    vec![T::default(); length].leak()
}

fn three() -> Three<'static> {
    let (marks, forms) = (list(least::MARKS), list(least::FORMS));
    Three { marks, forms, correction: list(least::CORRECTION) }
}

impl Rack {
    pub fn new() -> Rack {
        assert_eq!(version(), VERSION, "the library's version");
        let (flat, ends) = (list(least::FLAT), list(least::ENDS));
        let (shot, window, work) = (list(least::SHOT), list(least::WINDOW), list(least::WORK));
        // The versions are the same.
        let state = unsafe { fresh() };
        Rack { state, lent: Lent { flat, ends, shot, window, work, x: three(), z: three() } }
    }

    pub fn take(&mut self, record: &[u8]) -> Reply {
        // `new` compared the versions.
        let reply = unsafe { step(self.state, &mut self.lent, record) };
        self.state = reply.state;
        reply
    }

    /// What the reply to a decode says of the X half and the Z half.
    pub fn said(&self, reply: &Reply) -> Result<[Said; 2], String> {
        let n = usize::from(reply.state.n);
        let halves = [(&reply.x, &self.lent.x), (&reply.z, &self.lent.z)];
        let [x, z] = halves.map(|(half, lists)| said(half, &lists.correction[..n]));
        match (reply.answer, x, z) {
            (answer::DECODED, Some(x), Some(z)) => Ok([x, z]),
            _ => Err(format!("the library answers a decode with {reply:?}")),
        }
    }
}

fn said(half: &Half, correction: &[u8]) -> Option<Said> {
    let named = rack::Word::try_from(half.word).ok()?;
    let word = Word::ALL.into_iter().find(|word| word.name() == named.name())?;
    let [fixed, turns, guesses, live] =
        [half.fixed, half.turns, half.guesses, half.live].map(usize::from);
    let flips = || (0..correction.len()).filter(|&qubit| correction[qubit] == 1).collect();
    let counts = Counts { fixed, turns, guesses, live };
    Some(Said { word, counts, flips: word.finished().then(flips) })
}
