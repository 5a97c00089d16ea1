//! Tests from outside: document 01, with unread rows, logical qubits compared and candidates, written
//! a second time, plainly, and a judge that needs no turns.

pub mod asks;
pub mod bench;
pub mod bits;
pub mod candidates;
pub mod codes;
pub mod compared;
pub mod facts;
pub mod families;
pub mod form;
pub mod generate;
pub mod half;
pub mod judge;
pub mod known;
pub mod linear;
pub mod lists;
pub mod literal;
pub mod losses;
pub mod machine;
pub mod program;
pub mod random;
pub mod reach;
pub mod records;
pub mod shot;
pub mod shots;
pub mod strays;
pub mod stream;
pub mod wrong;
