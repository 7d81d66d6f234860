//! The host side of Tlepozaluh: a second checker and reader of CDF files, with a second calendar for epochs, written
//! from the rules (docs/RULES.md has them as they are now) and docs/STATE.md alone, a builder of good files and sources of damaged ones, and of states that no check
//! leaves, and a plain statement of what VAX floats are.
//!
//! The proved checker, rounds, reader and epochs, behind `bindings`, are compared with `second`; the two share no code.

// Denied and not forbidden: `bindings` calls C functions.
#![deny(unsafe_code)]
#![warn(missing_docs)]

pub mod appendices;
pub mod bindings;
pub mod build;
pub mod calls;
pub mod damage;
pub mod dump;
pub mod epochs;
pub mod fuzz;
pub mod fuzz_epochs;
pub mod fuzz_rounds;
pub mod locations;
pub mod made_up;
pub mod padding;
pub mod pair;
pub mod questions;
pub mod samples;
pub mod scripts;
pub mod second;
pub mod structs;
pub mod vax;
pub mod window;
