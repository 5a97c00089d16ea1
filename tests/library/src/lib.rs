//! Tests of the static library from outside.

pub mod agrees;
pub mod alter;
pub mod altered;
pub mod asker;
pub mod bench;
pub mod caller;
pub mod candidates;
pub mod checks;
pub mod garbage;
pub mod guard;
pub mod large;
pub mod larger;
pub mod lengths;
pub mod logical;
pub mod makers;
pub mod mirror;
pub mod numbers;
pub mod owned;
pub mod reader;
pub mod report;
pub mod reports;
pub mod session;
pub mod short;
pub mod tally;
pub mod watch;
pub mod window;

/// What a check did, or why it failed.
pub type Checked = Result<String, String>;
