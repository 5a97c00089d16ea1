//! Calls on lists that the caller owns.

use crate::raw::{self, Counts, Reply, State};

/// A half's three lists.
pub struct Three<'a> {
    pub marks: &'a mut [u8],
    pub forms: &'a mut [u64],
    pub correction: &'a mut [u8],
}

/// All that a call is lent.
pub struct Lent<'a> {
    pub flat: &'a mut [u16],
    pub ends: &'a mut [u16],
    pub shot: &'a mut [u8],
    pub window: &'a mut [u16],
    pub work: &'a mut [u64],
    pub x: Three<'a>,
    pub z: Three<'a>,
}

/// What a candidate is made from: the code's qubits, and a half's word, live count, marks and forms
/// as a decode left them.
#[derive(Clone, Copy)]
pub struct Shown<'a> {
    pub n: u16,
    pub word: u16,
    pub live: u16,
    pub marks: &'a [u8],
    pub forms: &'a [u64],
}

/// The library's version.
pub fn version() -> u16 {
    // Of every version the same: it takes nothing and hands back a number.
    unsafe { raw::rack_version() }
}

/// No code, no shot and no report.
///
/// # Safety
/// The library's version is `raw::VERSION`.
pub unsafe fn fresh() -> State {
    raw::rack_fresh()
}

/// One record. State, `flat`, `ends`, `shot` and `window` are as the last call left them.
///
/// # Safety
/// The library's version is `raw::VERSION`. The lists are slices, so they are aligned, good for
/// their lengths and apart.
pub unsafe fn step(state: State, lent: &mut Lent, bytes: &[u8]) -> Reply {
    raw::rack_step(
        state,
        lent.flat.as_mut_ptr(),
        lent.flat.len(),
        lent.ends.as_mut_ptr(),
        lent.ends.len(),
        lent.shot.as_mut_ptr(),
        lent.shot.len(),
        lent.window.as_mut_ptr(),
        lent.window.len(),
        lent.work.as_mut_ptr(),
        lent.work.len(),
        lent.x.marks.as_mut_ptr(),
        lent.x.marks.len(),
        lent.x.forms.as_mut_ptr(),
        lent.x.forms.len(),
        lent.x.correction.as_mut_ptr(),
        lent.x.correction.len(),
        lent.z.marks.as_mut_ptr(),
        lent.z.marks.len(),
        lent.z.forms.as_mut_ptr(),
        lent.z.forms.len(),
        lent.z.correction.as_mut_ptr(),
        lent.z.correction.len(),
        bytes.as_ptr(),
        bytes.len(),
    )
}

/// One candidate into the list's first n elements: 0, or the number of a refusal, and then nothing
/// is written. `Half::candidate` says what it is.
///
/// # Safety
/// The library's version is `raw::VERSION`. The lists are slices, as for `step`.
pub unsafe fn candidate(half: Shown, number: u64, candidate: &mut [u8]) -> u16 {
    raw::rack_candidate(
        half.n,
        half.word,
        half.live,
        half.marks.as_ptr(),
        half.marks.len(),
        half.forms.as_ptr(),
        half.forms.len(),
        number,
        candidate.as_mut_ptr(),
        candidate.len(),
    )
}

/// The last 256 reports counted, by state and window as the last call left them. Refused as short,
/// with zeros, for a window of fewer than `raw::least::WINDOW` elements. `Rack::counts` says what
/// is counted.
///
/// # Safety
/// The library's version is `raw::VERSION`. The list is a slice, as for `step`.
pub unsafe fn window(state: State, window: &[u16]) -> Counts {
    raw::rack_window(state, window.as_ptr(), window.len())
}
