//! The proved library and an independent Rust reckoning by the same rules, side by side.

#![forbid(unsafe_code)]

pub mod generator;
pub mod halves;
pub mod names;
pub mod prices;
pub mod process;
pub mod program;
pub mod reckoning;
pub mod sales;
pub mod settled;
pub mod sheets;
pub mod tally;
pub mod timing;
pub mod trials;
pub mod writing;
