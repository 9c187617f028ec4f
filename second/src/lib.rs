//! A second implementation of the rules in the scope paper, written from the
//! paper alone, in plain Rust and with no dependency. It shares no code and no
//! table with the proved library; `compare` holds the two against each other.
//!
//! The modules named after a subject of the paper are the reference: they do
//! what the paper says in the order in which it says it. `plain` is the same
//! written for speed, the yardstick of the benchmarks.

pub mod limits;
pub mod refusal;

pub mod choose;
pub mod date;
pub mod listing;
pub mod rows;
pub mod settle;
pub mod sheet;
pub mod show;
pub mod table;

pub mod known;
pub mod make;
pub mod plain;
pub mod random;
pub mod readings;

pub mod ffi;
pub mod packed;

#[cfg(test)]
mod examples;
