//! The rules of docs/RULES.md, reckoned in plain Rust without sight of the library. All of it is
//! written from the rules alone, never from the Rattle code; the comments name the rules that are
//! met.

pub mod allocation;
pub mod demand;
pub mod direct;
pub mod plain;
pub mod print;
pub mod round;
pub mod sale;
pub mod settled;
pub mod sheet;
pub mod trial;
pub mod writing;
pub mod xorwow;
