//! The comparisons of the library's written sheets with the Rust reckoning, group by group (rules
//! 11.2 to 11.6).

use crate::generator::Generator;
use crate::reckoning::sheet::Refusal;
use crate::reckoning::writing::List;
use crate::tally::Tally;

pub mod buffers;
mod document;
mod faults;
mod lengths;
mod parts;
pub mod random;
mod round_trips;
pub mod sizes;
mod worths;

/// Buffers of this many bytes have room for every sheet, and some to spare.
pub const LONGEST: usize = 600;

/// Above the greatest worth; some would be worths if they were narrowed to 16 or 24 bits, or cut to
/// six or to four digits (rule 11.4).
pub const TOO_HIGH: [u32; 18] = [
    10_000,
    10_001,
    32_768,
    65_535,
    65_536,
    65_541,
    75_535,
    99_999,
    999_999,
    1_000_000,
    1_000_001,
    1_000_005,
    (1 << 24) + 1,
    1 << 31,
    (1 << 31) + 5,
    u32::MAX - 65_530,
    u32::MAX - 1,
    u32::MAX,
];

/// Runs the groups of lists and buffers.
pub fn compare(tally: &mut Tally, generator: &mut Generator) {
    document::compare(tally, generator);
    sizes::compare(tally, generator);
    lengths::compare(tally, generator);
    buffers::compare(tally, generator);
    worths::compare(tally, generator);
    parts::compare(tally, generator);
    faults::compare(tally, generator);
    random::compare(tally, generator);
}

/// Runs the groups of sheets that are written and read.
pub fn compare_round_trips(tally: &mut Tally, generator: &mut Generator) {
    round_trips::compare(tally, generator);
}

/// The list, which is to be refused by this number, in a buffer of any length. The place is 0 (rule
/// 11.3).
fn refused(tally: &mut Tally, generator: &mut Generator, list: &List, number: u8) {
    let length = generator.below(LONGEST);
    let known = Err(Refusal { number, place: 0 });
    tally.known_writing(list, &generator.bytes(length), &known);
}
