//! The library's numbers as names. A number that has none is an error.

use crate::raw::{mark, refusal, word};
use crate::Error;
use std::fmt::{self, Display, Formatter};

/// An enum over the numbers of one kind, with document 01's word for each.
macro_rules! names {
    ($(#[$about:meta])* $name:ident, $what:literal, $number:ty;
     $($variant:ident = $value:expr, $said:literal;)*) => {
        $(#[$about])*
        #[derive(Clone, Copy, PartialEq, Eq, Debug)]
        pub enum $name {
            $($variant,)*
        }

        impl $name {
            pub const ALL: &'static [$name] = &[$($name::$variant,)*];

            pub fn number(self) -> $number {
                match self {
                    $($name::$variant => $value,)*
                }
            }

            pub fn name(self) -> &'static str {
                match self {
                    $($name::$variant => $said,)*
                }
            }
        }

        impl TryFrom<$number> for $name {
            type Error = Error;

            fn try_from(number: $number) -> Result<$name, Error> {
                let named = $name::ALL.iter().find(|name| name.number() == number);
                named.copied().ok_or(Error::Unknown { what: $what, number: number.into() })
            }
        }

        impl Display for $name {
            fn fmt(&self, to: &mut Formatter) -> fmt::Result {
                to.pad(self.name())
            }
        }
    };
}

names! {
    /// What a decode says of a half.
    Word, "word", u16;
    Certain = word::CERTAIN, "certain";
    Unsure = word::UNSURE, "unsure";
    None = word::NONE, "none";
    Spent = word::SPENT, "spent";
    Stopped = word::STOPPED, "stopped";
}

names! {
    /// Why a record is refused. Lost qubits and lit or unread rows: codeless without a complete
    /// code, range where there is no such qubit or row, twice for a qubit that is lost already or
    /// a row that is lit or unread already. Logical qubits: codeless without a complete code,
    /// encoded where its rows encode another number. Candidates: short, then unfinished where the
    /// half is, then many for more than `most::LIVE` live guesses or a number that none has.
    Refusal, "refusal", u16;
    Unknown = refusal::UNKNOWN, "unknown";
    Length = refusal::LENGTH, "length";
    Size = refusal::SIZE, "size";
    Place = refusal::PLACE, "place";
    Row = refusal::ROW, "row";
    Clash = refusal::CLASH, "clash";
    Codeless = refusal::CODELESS, "codeless";
    Range = refusal::RANGE, "range";
    Twice = refusal::TWICE, "twice";
    Spoiled = refusal::SPOILED, "spoiled";
    Short = refusal::SHORT, "short";
    Unfinished = refusal::UNFINISHED, "unfinished";
    Many = refusal::MANY, "many";
    Encoded = refusal::ENCODED, "encoded";
}

names! {
    /// What became of a qubit in a half.
    Mark, "mark", u8;
    NotLost = mark::NOT_LOST, "not lost";
    Fixed = mark::FIXED, "fixed";
    Peeled = mark::PEELED, "peeled";
    Guessed = mark::GUESSED, "guessed";
    Open = mark::OPEN, "open";
}
