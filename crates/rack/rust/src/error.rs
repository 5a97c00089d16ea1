//! Why there is no answer.

use crate::{raw, Refusal};
use std::fmt::{self, Display, Formatter};

#[derive(Clone, Copy, PartialEq, Eq, Debug)]
pub enum Error {
    /// The record was refused, and what it leaves is in the table of refusals; or a candidate or a
    /// read of the window was.
    Refused(Refusal),
    /// The library is of another version than these declarations.
    Version { library: u16 },
    /// The library answered with a number that has no name here.
    Unknown { what: &'static str, number: u16 },
}

impl Display for Error {
    fn fmt(&self, to: &mut Formatter) -> fmt::Result {
        match self {
            Error::Refused(refusal) => write!(to, "refused {}: {refusal}", refusal.number()),
            Error::Version { library } => {
                write!(to, "librack.a has version {library}, this crate {}", raw::VERSION)
            }
            Error::Unknown { what, number } => write!(to, "no {what} has number {number}"),
        }
    }
}

impl std::error::Error for Error {}
