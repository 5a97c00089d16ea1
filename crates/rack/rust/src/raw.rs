//! What `include/rack.h` declares, number for number.

/// The version of records, lists and structs.
pub const VERSION: u16 = 8;

/// The kind of a record, its first byte. A row's is this and as many more as it has qubits.
pub mod kind {
    pub const SIZES: u8 = 1;
    pub const LOST: u8 = 2;
    pub const LIT_Z: u8 = 3;
    pub const LIT_X: u8 = 4;
    pub const DECODE: u8 = 5;
    pub const UNREAD_Z: u8 = 6;
    pub const UNREAD_X: u8 = 7;
    pub const LOGICAL: u8 = 8;
    pub const X_ROW: u8 = 32;
    pub const Z_ROW: u8 = 64;
}

/// The most that a record may carry, and the most live guesses of a half whose candidates are
/// shown.
pub mod most {
    pub const QUBITS: usize = 1024;
    pub const ROWS: usize = 512;
    pub const WEIGHT: usize = 16;
    pub const BUDGET: usize = 255;
    pub const LIMIT: usize = 65535;
    pub const LIVE: usize = 8;
}

/// The least length of each list, in elements. Marks and correction need as many elements as the
/// code has qubits, forms four times as many, at a decode only: these are enough for every code.
pub mod least {
    pub const FLAT: usize = 16384;
    pub const ENDS: usize = 16384;
    pub const SHOT: usize = 2048;
    pub const WINDOW: usize = 2560;
    pub const WORK: usize = 10240;
    pub const MARKS: usize = 1024;
    pub const FORMS: usize = 4096;
    pub const CORRECTION: usize = 1024;
}

/// The answer to a record.
pub mod answer {
    pub const TAKEN: u16 = 0;
    pub const COMPLETE: u16 = 1;
    pub const DECODED: u16 = 2;
    pub const REFUSED: u16 = 3;
}

/// The word of a half; 0 where nothing was decoded.
pub mod word {
    pub const CERTAIN: u16 = 1;
    pub const UNSURE: u16 = 2;
    pub const NONE: u16 = 3;
    pub const SPENT: u16 = 4;
    pub const STOPPED: u16 = 5;
}

/// The number of a refusal; 0 where the library refused nothing. 10, 13 and 14 are not used; 15 and
/// 16 are of candidates, no record gets them.
pub mod refusal {
    pub const UNKNOWN: u16 = 1;
    pub const LENGTH: u16 = 2;
    pub const SIZE: u16 = 3;
    pub const PLACE: u16 = 4;
    pub const ROW: u16 = 5;
    pub const CLASH: u16 = 6;
    pub const CODELESS: u16 = 7;
    pub const RANGE: u16 = 8;
    pub const TWICE: u16 = 9;
    pub const SPOILED: u16 = 11;
    pub const SHORT: u16 = 12;
    pub const UNFINISHED: u16 = 15;
    pub const MANY: u16 = 16;
    pub const ENCODED: u16 = 17;
}

/// The mark of a qubit.
pub mod mark {
    pub const NOT_LOST: u8 = 0;
    pub const FIXED: u8 = 1;
    pub const PEELED: u8 = 2;
    pub const GUESSED: u8 = 3;
    pub const OPEN: u8 = 4;
}

/// Whether there is a code.
pub mod phase {
    pub const EMPTY: u8 = 0;
    pub const LOADING: u8 = 1;
    pub const READY: u8 = 2;
}

/// `struct rack_state`.
#[repr(C)]
#[derive(Clone, Copy, PartialEq, Eq, Debug, Default)]
pub struct State {
    pub phase: u8,
    pub clash: u8,
    pub spoiled: u8,
    pub stale: u8,
    pub n: u16,
    pub x: u16,
    pub z: u16,
    pub rows: u16,
    pub reports: u16,
}

/// `struct rack_half`.
#[repr(C)]
#[derive(Clone, Copy, PartialEq, Eq, Debug, Default)]
pub struct Half {
    pub word: u16,
    pub fixed: u16,
    pub turns: u16,
    pub guesses: u16,
    pub live: u16,
}

/// `struct rack_reply`.
#[repr(C)]
#[derive(Clone, Copy, PartialEq, Eq, Debug, Default)]
pub struct Reply {
    pub state: State,
    pub answer: u16,
    pub refusal: u16,
    pub x: Half,
    pub z: Half,
}

/// `struct rack_half_counts`: how many of the reports counted had each word, and the sums of their
/// turns, guesses and live guesses. The five words add up to the reports.
#[repr(C)]
#[derive(Clone, Copy, PartialEq, Eq, Debug, Default)]
pub struct HalfCounts {
    pub certain: u32,
    pub unsure: u32,
    pub none: u32,
    pub spent: u32,
    pub stopped: u32,
    pub turns: u32,
    pub guesses: u32,
    pub live: u32,
}

/// `struct rack_counts`.
#[repr(C)]
#[derive(Clone, Copy, PartialEq, Eq, Debug, Default)]
pub struct Counts {
    pub refusal: u32,
    pub x: HalfCounts,
    pub z: HalfCounts,
}

extern "C" {
    pub fn rack_version() -> u16;
    pub fn rack_fresh() -> State;
    pub fn rack_step(
        state: State,
        flat: *mut u16,
        flat_length: usize,
        ends: *mut u16,
        ends_length: usize,
        shot: *mut u8,
        shot_length: usize,
        window: *mut u16,
        window_length: usize,
        work: *mut u64,
        work_length: usize,
        x_marks: *mut u8,
        x_marks_length: usize,
        x_forms: *mut u64,
        x_forms_length: usize,
        x_correction: *mut u8,
        x_correction_length: usize,
        z_marks: *mut u8,
        z_marks_length: usize,
        z_forms: *mut u64,
        z_forms_length: usize,
        z_correction: *mut u8,
        z_correction_length: usize,
        bytes: *const u8,
        bytes_length: usize,
    ) -> Reply;
    pub fn rack_candidate(
        n: u16,
        word: u16,
        live: u16,
        marks: *const u8,
        marks_length: usize,
        forms: *const u64,
        forms_length: usize,
        number: u64,
        candidate: *mut u8,
        candidate_length: usize,
    ) -> u16;
    pub fn rack_window(state: State, window: *const u16, window_length: usize) -> Counts;
}
