//! The loss decoder for Rust, over the static library that `include/rack.h` declares for C.
//!
//! A [`Rack`] owns its lists and takes a record a call: a code's sizes and rows and the number of
//! its logical qubits, then for each shot the lost qubits, the lit rows, the rows that could not be
//! read, and a decode. What is refused is an error. A decode's [`Report`] borrows the rack's lists,
//! so it can't be read after another call has changed them; [`Half::candidate`] shows each class of
//! errors that fit once. [`Rack::counts`] counts the last 256 reports.
//!
//! Which half reads which rows: the X half holds X errors, found from the Z rows, so
//! [`Rack::lit_z`] and [`Rack::unread_z`] are about the X half. The Z half holds Z errors, found
//! from the X rows, so [`Rack::lit_x`] and [`Rack::unread_x`] are about the Z half. Nothing can
//! object to the two exchanged.
//!
//! `README.md` of the repository has the tables of records, words and refusals; `examples/rust` is
//! a whole program.

mod error;
pub mod lent;
mod names;
mod rack;
pub mod raw;
mod record;
mod report;

pub use error::Error;
pub use names::{Mark, Refusal, Word};
pub use rack::Rack;
pub use raw::HalfCounts;
pub use record::Record;
pub use report::{Answer, Counts, Half, Report, Sizes};
