//! Lists with one fault and with two at all combinations of places, and with any number of them. A
//! question is put to the whole list before the next one is (rule 11.3): the answer is the lowest
//! number among the faults, wherever they stand.

use super::LONGEST;
use crate::generator::{bytes_of, sizes, Generator};
use crate::reckoning::sheet::{bundles, length, parts, Refusal, Sheet};
use crate::reckoning::writing::List;
use crate::sheets::faults::good_sheet;
use crate::tally::Tally;

/// Moderate sizes, as buyers and lots.
const SIZES: [(usize, usize); 2] = [(3, 2), (2, 3)];

/// Lists drawn with each set of faults, for each size.
const DRAWN: usize = 20;

/// The numbers of the questions, that of the list's length last.
const NUMBERS: [u8; 6] = [3, 4, 7, 8, 11, 5];

/// An edit of what is lent that makes the answer to one question no.
#[derive(Clone, Copy)]
struct Fault {
    number: u8,
    edit: Edit,
}

#[derive(Clone, Copy)]
enum Edit {
    Buyers(u32),
    Lots(u32),
    /// The worth at a place of the list.
    Worth(usize, u32),
    /// The length of the list.
    Length(usize),
    /// The length of the buffer.
    Buffer(usize),
}

pub fn compare(tally: &mut Tally, generator: &mut Generator) {
    tally.group("writing with up to two faults", |tally| {
        for (buyers, lots) in SIZES {
            let good = good_sheet(buyers, lots);
            let faults = faults(&good);
            for (i, one) in faults.iter().enumerate() {
                combine(tally, generator, &good, &[*one]);
                for two in &faults[i + 1..] {
                    combine(tally, generator, &good, &[*one, *two]);
                }
            }
        }
    });
    tally.group("writing with every set of faults", |tally| {
        for (buyers, lots) in sizes() {
            let good = good_sheet(buyers, lots);
            let faults = faults(&good);
            for set in 0..1 << NUMBERS.len() {
                for _ in 0..DRAWN {
                    let drawn = draw(generator, &faults, set);
                    combine(tally, generator, &good, &drawn);
                }
            }
        }
    });
}

/// A fault of each number in the set, as far as there are any.
fn draw(generator: &mut Generator, faults: &[Fault], set: usize) -> Vec<Fault> {
    let mut drawn = Vec::new();
    for (at, number) in NUMBERS.into_iter().enumerate() {
        let of_number = faults.iter().filter(|fault| fault.number == number);
        let of_number: Vec<Fault> = of_number.copied().collect();
        if set >> at & 1 == 1 && !of_number.is_empty() {
            drawn.push(generator.pick(&of_number));
        }
    }
    drawn
}

/// Compares the good list with these faults, if none undoes another.
fn combine(tally: &mut Tally, generator: &mut Generator, good: &Sheet, faults: &[Fault]) {
    let mut list = List::of(good);
    let mut buffer = LONGEST;
    for (i, fault) in faults.iter().enumerate() {
        if faults[..i].iter().any(|earlier| earlier.overlaps(fault)) {
            return;
        }
        match fault.edit {
            Edit::Buyers(buyers) => list.buyers = buyers,
            Edit::Lots(lots) => list.lots = lots,
            Edit::Worth(place, worth) => list.worths[place] = worth,
            Edit::Length(length) => list.worths.resize(length, 0),
            Edit::Buffer(length) => buffer = length,
        }
    }
    let number = faults.iter().map(|fault| fault.number).min();
    let known = match number {
        Some(number) => Err(Refusal { number, place: 0 }),
        None => Ok(bytes_of(good)),
    };
    tally.known_writing(&list, &generator.bytes(buffer), &known);
}

impl Fault {
    /// Whether one edit would undo the other.
    fn overlaps(&self, other: &Fault) -> bool {
        match (self.edit, other.edit) {
            (Edit::Worth(one, _), Edit::Worth(other, _)) => one == other,
            _ => self.number == other.number,
        }
    }
}

/// Every fault of the good sheet's list. Those that resize it come last, after anything is written
/// to it.
fn faults(good: &Sheet) -> Vec<Fault> {
    let (buyers, lots) = (good.buyers, good.lots);
    let mut faults = Vec::new();
    let mut add = |number: u8, edit: Edit| faults.push(Fault { number, edit });
    for count in [0, 7, 255, 256 + buyers as u32, u32::MAX] {
        add(3, Edit::Buyers(count));
    }
    for count in [0, 5, 255, 256 + lots as u32, u32::MAX] {
        add(4, Edit::Lots(count));
    }
    for row in 0..buyers {
        for bundle in 1..=bundles(lots) {
            let place = row * bundles(lots) + bundle - 1;
            for worth in [10_000, 65_536 + 5, u32::MAX] {
                add(7, Edit::Worth(place, worth));
            }
            for part in parts(bundle).filter(|&part| part != 0) {
                let worth = good.worths[row][part] - 1;
                add(8, Edit::Worth(place, worth.into()));
            }
        }
    }
    let bytes = length(buyers, lots);
    for length in [0, bytes - 1] {
        add(11, Edit::Buffer(length));
    }
    let numbers = buyers * bundles(lots);
    for length in [0, numbers - 1, numbers + 1, 256 + numbers] {
        add(5, Edit::Length(length));
    }
    faults
}
