//! Random lists: of any numbers, and of good sheets with something changed.

use super::{LONGEST, TOO_HIGH};
use crate::generator::Generator;
use crate::reckoning::sheet::{bundles, length};
use crate::reckoning::writing::List;
use crate::tally::Tally;

/// Lists drawn in each group.
const DRAWN: usize = 50_000;

/// One in so many lists is written into the crate's own buffer too.
const OWN: usize = 10;

/// The greatest length that a list is given.
const MOST: usize = 300;

/// Bounds of random worths.
const BOUNDS: [usize; 7] = [1, 3, 10_000, 10_001, 20_000, 70_000, 1 << 32];

pub fn compare(tally: &mut Tally, generator: &mut Generator) {
    let mut group = |name: &str, make: fn(&mut Generator) -> List| {
        tally.group(name, |tally| {
            for drawn in 0..DRAWN {
                let list = make(generator);
                let length = buffer_length(generator, &list);
                tally.writing(&list, &generator.bytes(length));
                if drawn % OWN == 0 {
                    tally.own_buffer(&list);
                }
            }
        });
    };
    group("writing random numbers", numbers);
    group("writing random lists of the right length", of_right_length);
    group("writing good lists with changes", changed);
}

/// Any length, or one of those around the sheet's.
fn buffer_length(generator: &mut Generator, list: &List) -> usize {
    match (list.buyers, list.lots) {
        (1..=6, 1..=4) if generator.below(2) == 0 => {
            length(list.buyers as usize, list.lots as usize) + generator.below(3) - 1
        }
        _ => generator.below(LONGEST),
    }
}

/// Numbers of buyers and lots in range and next to it, and a list of any length.
fn numbers(generator: &mut Generator) -> List {
    let count = generator.below(100);
    List {
        buyers: generator.below(8) as u32,
        lots: generator.below(6) as u32,
        worths: worths(generator, count),
    }
}

/// A size in range and a list of its length.
fn of_right_length(generator: &mut Generator) -> List {
    let (buyers, lots) = generator.size();
    List {
        buyers: buyers as u32,
        lots: lots as u32,
        worths: worths(generator, buyers * bundles(lots)),
    }
}

/// Numbers below a bound.
fn worths(generator: &mut Generator, count: usize) -> Vec<u32> {
    let bound = generator.pick(&BOUNDS);
    (0..count).map(|_| generator.below(bound) as u32).collect()
}

/// The list of a good sheet, changed in up to three ways.
pub fn changed(generator: &mut Generator) -> List {
    let (buyers, lots) = generator.size();
    let mut list = List::of(&generator.monotone(buyers, lots));
    for _ in 0..generator.below(4) {
        change(generator, &mut list);
    }
    list
}

/// Gives the list another number of buyers or lots, takes a worth away or adds one, gives it any
/// length or another worth, or changes two worths for each other.
fn change(generator: &mut Generator, list: &mut List) {
    let count = list.worths.len();
    let size = generator.below(8) as u32;
    let bound = generator.pick(&BOUNDS);
    let number = generator.below(bound) as u32;
    let high = generator.pick(&TOO_HIGH);
    match generator.below(7) {
        0 => list.buyers = generator.pick(&[size, size, high]),
        1 => list.lots = generator.pick(&[size, size, high]),
        2 => list.worths.truncate(count.saturating_sub(1)),
        3 => list.worths.push(number),
        4 => list.worths.resize(generator.below(MOST + 1), number),
        5 if count > 0 => {
            list.worths[generator.below(count)] = generator.pick(&[number, number, high]);
        }
        _ if count > 0 => {
            let (one, other) = (generator.below(count), generator.below(count));
            list.worths.swap(one, other);
        }
        _ => {}
    }
}
