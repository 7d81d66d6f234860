//! The second implementation of the rules (docs/RULES.md), with the saved state of docs/STATE.md.
//!
//! `bytes`, `tables` and `rules` say what fields, numbers and records are, `vax` what VAX floats are, by the numbers of
//! `whole`; `check` makes the steps from one saved state (`state`) to the next, `rounds` makes the rounds of several
//! checks, `read` gives values and descriptors, and `dump` writes all that the reader finds in a file as text. `epochs` stands
//! alone: dates, by a list of all days.

pub mod bytes;
pub mod check;
pub mod dump;
pub mod epochs;
pub mod read;
pub mod rounds;
pub mod rules;
pub mod state;
pub mod tables;
pub mod vax;
mod walk;
mod way;
mod whole;
