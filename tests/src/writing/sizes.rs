//! Numbers of buyers and lots in range and out of it, in all pairs, each with lists of every length
//! that a size asks for. None is cut before questions 3 and 4 are put (rule 11.4).

use std::collections::BTreeSet;

use super::{refused, LONGEST};
use crate::generator::{sizes, Generator};
use crate::reckoning::sheet::bundles;
use crate::reckoning::writing::List;
use crate::tally::Tally;

/// Those in range and next to it, and those that would be in range if they were narrowed, or if
/// 2^n were reckoned with a part of n.
pub const COUNTS: [u32; 28] = [
    0,
    1,
    2,
    3,
    4,
    5,
    6,
    7,
    8,
    31,
    32,
    33,
    36,
    63,
    64,
    65,
    255,
    256,
    257,
    260,
    65_535,
    65_536,
    65_537,
    65_540,
    1 << 31,
    (1 << 31) + 1,
    u32::MAX - 1,
    u32::MAX,
];

pub fn compare(tally: &mut Tally, generator: &mut Generator) {
    let lengths = sizes().map(|(buyers, lots)| buyers * bundles(lots));
    let lengths: BTreeSet<usize> = lengths.chain([0]).collect();
    tally.group("writing for buyers and lots of all pairs", |tally| {
        for buyers in COUNTS {
            for lots in COUNTS {
                for &length in &lengths {
                    // A worth of 10,000 too, which is asked about later.
                    for worth in [0, 10_000] {
                        let list = List::new(buyers, lots, vec![worth; length]);
                        write(tally, generator, &list);
                    }
                }
            }
        }
    });
}

fn write(tally: &mut Tally, generator: &mut Generator, list: &List) {
    match (list.buyers, list.lots) {
        (1..=6, 1..=4) => tally.writing(list, &generator.bytes(LONGEST)),
        (1..=6, _) => refused(tally, generator, list, 4),
        _ => refused(tally, generator, list, 3),
    }
    tally.beyond(list, &generator.bytes(LONGEST));
}
