//! Deliberately wrong rules, to see that the tests catch them.

use crate::codes::{distinct, rank, Code};
use crate::form::{Form, BITS, WORDS};
use crate::half::{Half, Row};
use crate::judge;
use crate::shot::{alike, Shot};
use crate::stream::{body, LOGICAL};
use std::cmp::Reverse;

/// Rules that the lines of `shots` tell of, then those that candidates tell of.
macro_rules! wrongs {
    ($($variant:ident $name:literal)*; $($shown:ident $shown_name:literal)*) => {
        #[derive(Clone, Copy, PartialEq, Eq, Debug)]
        pub enum Wrong {
            Nothing,
            $($variant,)*
            $($shown,)*
        }

        impl Wrong {
            pub const ALL: &'static [(&'static str, Wrong)] =
                &[$(($name, Wrong::$variant),)* $(($shown_name, Wrong::$shown),)*];
            pub const OF_CANDIDATES: &'static [Wrong] = &[$(Wrong::$shown),*];
        }
    };
}

wrongs! {
    // A half's start.
    FixEachRow "fix-each-row"
    FixSingleRows "fix-single-rows"
    FixNothing "fix-nothing"
    UntouchedIgnored "untouched-ignored"
    // Its turns.
    PeelHighest "peel-highest"
    GuessHighest "guess-highest"
    GuessLowest "guess-lowest"
    GuessByBoth "guess-by-both"
    GuessByRows "guess-by-rows"
    GuessByPairs "guess-by-pairs"
    PairsOfTheStart "pairs-of-the-start"
    OldestReplaced "oldest-replaced"
    BitKept "bit-kept"
    NewestOfLowest "newest-of-the-lowest-word"
    LostAt64 "lost-at-border-64"
    LostAt128 "lost-at-border-128"
    LostAt192 "lost-at-border-192"
    NoBit63 "bit-63-lost"
    OneWord "forms-of-64-bits"
    TwoWords "forms-of-128-bits"
    ThreeWords "forms-of-192-bits"
    NoTop "forms-of-255-bits"
    // Its end.
    BudgetFirst "budget-first"
    BudgetOverall "budget-overall"
    LimitFirst "limit-first"
    SpentFirst "spent-first"
    CertainIfFits "certain-if-fits"
    FailingUncounted "failing-turn-uncounted"
    LiveAfterNone "live-after-none"
    // Rows that were not read.
    UnreadDangles "unread-dangles"
    UnreadCloses "unread-closes"
    UnreadCounts "unread-counts"
    UnreadZero "unread-as-zero"
    UnreadLit "unread-as-lit"
    UnreadFixesNothing "unread-fixes-nothing"
    // What a refusal leaves.
    ThreeKeeps "code-kept-after-3"
    FourKeeps "code-kept-after-4"
    FiveKeeps "code-kept-after-5"
    SixKeeps "code-kept-after-6"
    SevenDrops "loading-dropped-after-7"
    EightForgives "unspoiled-after-8"
    NineForgives "unspoiled-after-9"
    ElevenSpoils "spoiled-after-11"
    // Which refusal is given.
    FiveFirst "5-before-4"
    BudgetRefused "budget-64-refused"
    SixUnseen "never-6"
    NineUnseen "never-9"
    LitAfterUnread "no-9-for-lit-after-unread"
    UnreadAfterLit "no-9-for-unread-after-lit"
    UnreadTwice "no-9-for-unread-twice"
    NineAcross "9-across-kinds"
    ClashOfLast "6-looks-at-last-row"
    // Logical qubits compared.
    DependentCounted "dependent-rows-counted"
    DistinctCounted "distinct-rows-counted"
    RepeatedCounted "repeated-rows-counted"
    XForgotten "x-rows-forgotten"
    ZForgotten "z-rows-forgotten"
    RankedTogether "kinds-ranked-together"
    UnreadUnranked "unread-rows-not-ranked"
    AtLeast "17-only-for-too-few"
    AtMost "17-only-for-too-many"
    BytesExchanged "bytes-of-k-exchanged"
    LowByteAlone "low-byte-of-k-alone"
    AgreedEmpties "shot-emptied-by-agreement"
    AgreedHeals "unspoiled-by-agreement"
    AgreedSpoils "spoiled-by-agreement"
    SeventeenKeeps "code-kept-after-17"
    SeventeenSpoils "spoiled-after-17"
    SeventeenEnds "shot-ended-after-17"
    CodelessDiffers "17-without-code"
    CodelessTaken "kind-8-taken-without-code"
    LogicalUnknown "kind-8-unknown"
    // The rest of the stream.
    ShotKept "shot-kept-after-decode"
    UnreadKept "unread-kept-after-decode"
    SpoiledDeaf "spoiled-takes-nothing"
    SpoiledUnread "spoiled-takes-no-unread"
    LitCrossed "lit-kinds-crossed"
    UnreadCrossed "unread-kinds-crossed"
    HalvesCrossed "halves-crossed"
    CutOffSilent "cut-off-silent"
    UnknownGoesOn "unknown-goes-on"
    ;
    // What a candidate is.
    NextBit "guess-i-by-bit-i"
    NewestFirst "newest-guess-by-bit-0"
    ConstantForgotten "constant-forgotten"
    FormsByQubit "forms-from-element-q"
    // Which candidate is refused.
    UnfinishedFirst "15-before-12"
    ManyFirst "16-before-15"
    FormsOfOneWord "forms-of-n-words-taken"
    WordUnseen "candidates-of-any-word"
    CertainUnshown "no-candidate-of-certain"
    MarksUnseen "marks-not-looked-at"
    LastMarkUnseen "last-mark-not-looked-at"
    MarksPastSeen "marks-past-n-looked-at"
    NineLive "9-live-taken"
    AnyLive "any-live-taken"
    EndTaken "number-2^live-taken"
    NumberUnseen "any-number-taken"
}

/// What a row that was read does in a half's turns.
#[derive(Clone, Copy, PartialEq, Eq)]
pub enum Part {
    Dangle,
    /// It is taken up.
    Close,
    /// It counts for the guess.
    Count,
}

impl Wrong {
    pub fn named(name: &str) -> Option<Wrong> {
        let mut all = Wrong::ALL.iter();
        all.find(|(known, _)| *known == name).map(|(_, wrong)| *wrong)
    }

    /// The order in which refusals are tried.
    pub fn order(self) -> Vec<u8> {
        let mut order: Vec<u8> = (1..=12).chain([17]).collect();
        match self {
            Wrong::FiveFirst => order.swap(3, 4),
            Wrong::SixUnseen => order.retain(|&number| number != 6),
            Wrong::NineUnseen => order.retain(|&number| number != 9),
            _ => {}
        }
        order
    }

    /// Whether a budget gets refusal 10, as none does.
    pub fn refuses(self, budget: u8) -> bool {
        self == Wrong::BudgetRefused && budget > 63
    }

    /// The refusal whose last column is followed.
    pub fn leaves(self, number: u8) -> u8 {
        const NOTHING_CHANGED: u8 = 7;
        match (self, number) {
            (Wrong::ThreeKeeps, 3)
            | (Wrong::FourKeeps, 4)
            | (Wrong::FiveKeeps, 5)
            | (Wrong::SixKeeps, 6)
            | (Wrong::EightForgives, 8)
            | (Wrong::NineForgives, 9)
            | (Wrong::SeventeenKeeps, 17) => NOTHING_CHANGED,
            (Wrong::SevenDrops, 7) => 3,
            (Wrong::ElevenSpoils, 11) | (Wrong::SeventeenSpoils, 17) => 8,
            (Wrong::SeventeenEnds, 17) => 11,
            _ => number,
        }
    }

    /// The kind whose set a kind adds to.
    pub fn crossed(self, kind: u8) -> u8 {
        match (self, kind) {
            (Wrong::LitCrossed, 3) => 4,
            (Wrong::LitCrossed, 4) => 3,
            (Wrong::UnreadCrossed, 6) => 7,
            (Wrong::UnreadCrossed, 7) => 6,
            _ => kind,
        }
    }

    /// The kinds whose numbers in the shot a kind may not name again.
    pub fn barred(self, kind: u8) -> &'static [u8] {
        match (self, kind) {
            (Wrong::LitAfterUnread, 3) | (Wrong::UnreadTwice, 6) => &[3],
            (Wrong::LitAfterUnread, 4) | (Wrong::UnreadTwice, 7) => &[4],
            (Wrong::UnreadAfterLit, 6) => &[6],
            (Wrong::UnreadAfterLit, 7) => &[7],
            (Wrong::NineAcross, 3 | 4 | 6 | 7) => &[3, 4, 6, 7],
            _ => alike(kind),
        }
    }

    /// The length that a kind's body has.
    pub fn body(self, kind: u8) -> Option<usize> {
        match (self, kind) {
            (Wrong::LogicalUnknown, LOGICAL) => None,
            _ => body(kind),
        }
    }

    /// Whether a kind gets refusal 7 without a complete code.
    pub fn codeless(self, kind: u8) -> bool {
        kind != LOGICAL || !matches!(self, Wrong::CodelessDiffers | Wrong::CodelessTaken)
    }

    /// Whether the bytes of kind 8 have the number of qubits that the code's rows encode.
    pub fn agrees(self, code: &Code, shot: &Shot, bytes: &[u8]) -> bool {
        let pair = [bytes[0], bytes[1]];
        let sent: i32 = match self {
            Wrong::BytesExchanged => u16::from_be_bytes(pair).into(),
            _ => u16::from_le_bytes(pair).into(),
        };
        let encoded = self.encoded(code, shot);
        match self {
            Wrong::AtLeast => sent >= encoded,
            Wrong::AtMost => sent <= encoded,
            Wrong::LowByteAlone => (sent - encoded) % 256 == 0,
            _ => sent == encoded,
        }
    }

    /// n less what the rows count; below 0 where a wrong rule has too many rows or some that clash.
    fn encoded(self, code: &Code, shot: &Shot) -> i32 {
        let Code { n, x, z } = code;
        let rank = |rows: &[Row]| rank(*n, rows);
        let read = |rows: &[Row], unread: u8| -> Vec<Row> {
            let places = (0..rows.len()).filter(|&at| !shot.set(unread).get(at));
            places.map(|at| rows[at].clone()).collect()
        };
        let bound = match self {
            Wrong::DependentCounted => x.len() + z.len(),
            Wrong::DistinctCounted => distinct(x) + distinct(z),
            Wrong::RepeatedCounted => {
                let repeated = x.len() - distinct(x) + z.len() - distinct(z);
                rank(x) + rank(z) + repeated
            }
            Wrong::XForgotten => rank(z),
            Wrong::ZForgotten => rank(x),
            Wrong::RankedTogether => rank(&[&x[..], z].concat()),
            Wrong::UnreadUnranked => rank(&read(x, 7)) + rank(&read(z, 6)),
            _ => rank(x) + rank(z),
        };
        *n as i32 - bound as i32
    }

    /// Whether a shot is spoiled after kind 8 agreed in it.
    pub fn spoiled_after_agreeing(self, spoiled: bool) -> bool {
        match self {
            Wrong::AgreedHeals => false,
            Wrong::AgreedSpoils => true,
            _ => spoiled,
        }
    }

    /// Whether a spoiled shot takes a kind.
    pub fn spoiled_takes(self, kind: u8) -> bool {
        match self {
            Wrong::SpoiledDeaf => false,
            Wrong::SpoiledUnread => !matches!(kind, 6 | 7),
            _ => true,
        }
    }

    pub fn clash(self, code: &Code) -> bool {
        if self != Wrong::ClashOfLast {
            return !code.commutes();
        }
        let last = code.z.iter().rev().take(1).cloned().collect();
        let seen = Code { z: last, ..code.clone() };
        !seen.commutes()
    }

    pub fn fixed(self, half: &Half) -> Vec<usize> {
        let erased = |row: &&Row| row.iter().all(|&qubit| half.lost.get(qubit));
        let rows = half.other.iter().filter(erased);
        let read = |at: &usize| !half.other_unread.get(*at);
        match self {
            Wrong::UnreadFixesNothing => {
                let places = (0..half.other.len()).filter(read);
                let other: Vec<Row> = places.map(|at| half.other[at].clone()).collect();
                judge::fixed(&Half { other: &other, ..*half })
            }
            Wrong::FixNothing => Vec::new(),
            Wrong::FixSingleRows => rows.map(|row| row[0]).collect(),
            Wrong::FixEachRow => rows.fold(Vec::new(), |mut fixed, row| {
                fixed.extend(row.iter().find(|qubit| !fixed.contains(*qubit)).copied());
                fixed
            }),
            _ => judge::fixed(half),
        }
    }

    /// The form of a new guess.
    pub fn guessed(self, bit: usize) -> Form {
        let kept = match self {
            Wrong::NoBit63 => bit != 63,
            Wrong::OneWord => bit < 64,
            Wrong::TwoWords => bit < 128,
            Wrong::ThreeWords => bit < 192,
            Wrong::NoTop => bit != BITS - 1,
            _ => true,
        };
        if kept {
            Form::bit(bit)
        } else {
            Form::ZERO
        }
    }

    /// The guess in a side that is replaced: the newest.
    pub fn replaced(self, side: Form) -> usize {
        let word = |at: usize| (64 * at).max(1)..64 * (at + 1);
        let found = match self {
            Wrong::OldestReplaced => (1..BITS).find(|&bit| side.get(bit)),
            Wrong::NewestOfLowest => (0..WORDS).find_map(|at| word(at).rfind(|&bit| side.get(bit))),
            _ => side.highest(),
        };
        found.expect("a guess")
    }

    /// A form without a guess that was replaced: later ones move down.
    pub fn closed_up(self, form: Form, guess: usize) -> Form {
        let border = match self {
            Wrong::BitKept => return form,
            Wrong::LostAt64 => 64,
            Wrong::LostAt128 => 128,
            Wrong::LostAt192 => 192,
            _ => 0,
        };
        let lost = guess < border && form.get(border);
        (if lost { form ^ Form::bit(border) } else { form }).without(guess)
    }

    /// The rows that do this: those that were read, ascending.
    pub fn rows(self, half: &Half, part: Part) -> Vec<usize> {
        let unread_too = match self {
            Wrong::UnreadDangles => part == Part::Dangle,
            Wrong::UnreadCloses => part == Part::Close,
            Wrong::UnreadCounts => part == Part::Count,
            Wrong::UnreadZero | Wrong::UnreadLit => true,
            _ => false,
        };
        (0..half.rows.len()).filter(|&at| unread_too || !half.unread.get(at)).collect()
    }

    /// Whether a row's side has a lit bit.
    pub fn lit(self, half: &Half, row: usize) -> bool {
        half.lit.get(row) || (self == Wrong::UnreadLit && half.unread.get(row))
    }

    /// The rows that count for the guess, those of the other kind after the half's.
    pub fn counted(self, half: &Half) -> Vec<usize> {
        let (own, other) = (half.rows.len(), half.other.len());
        let rows = self.rows(half, Part::Count);
        match self {
            Wrong::GuessLowest => Vec::new(),
            Wrong::GuessByBoth => rows.into_iter().chain(own..own + other).collect(),
            _ => rows,
        }
    }

    /// The qubits by how many rows that count they are on, most first, then by their numbers.
    pub fn order_of_equals<'a>(
        self,
        n: usize,
        counted: impl Iterator<Item = &'a Row>,
    ) -> Vec<usize> {
        let mut rows = vec![0; n];
        counted.flatten().for_each(|&qubit| rows[qubit] += 1);
        let mut order: Vec<usize> = (0..n).collect();
        match self {
            Wrong::GuessByPairs => {}
            Wrong::GuessHighest => order.sort_by_key(|&qubit| Reverse((rows[qubit], qubit))),
            _ => order.sort_by_key(|&qubit| (Reverse(rows[qubit]), qubit)),
        }
        order
    }
}
