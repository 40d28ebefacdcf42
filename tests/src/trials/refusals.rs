//! Numbers of buyers and lots and tops of all combinations, in range and out of it, each with
//! buffers that are long enough and too short. The first question that gets a no refuses: 3, 4, 7
//! and 11 are put in this order (rule 12.5).

use crate::generator::Generator;
use crate::reckoning::sheet::{length, refuse, GREATEST_WORTH};
use crate::reckoning::trial::Trial;
use crate::tally::Tally;
use crate::writing::sizes::COUNTS;
use crate::writing::{LONGEST, TOO_HIGH};

/// Tops in range.
const TOPS: [u32; 4] = [0, 5, 9_998, 9_999];

/// Few draws are thrown away, or many.
const NUMBERS: [u16; 3] = [0, 1, 8];
const GREATEST: u16 = u16::MAX;

pub fn compare(tally: &mut Tally, generator: &mut Generator) {
    tally.group("trial sheets refused by all combinations", |tally| {
        for buyers in COUNTS {
            for lots in COUNTS {
                for top in TOPS.into_iter().chain(TOO_HIGH) {
                    let trial = Trial {
                        number: generator.pick(&NUMBERS),
                        buyers,
                        lots,
                        top,
                    };
                    ask(tally, generator, &trial);
                }
            }
        }
    });
    tally.group("trial sheets of the greatest number refused", |tally| {
        for (buyers, lots, top) in [(7, 5, 10_000), (6, 5, 10_000), (6, 4, 10_000), (6, 4, 5)] {
            let trial = Trial {
                number: GREATEST,
                buyers,
                lots,
                top,
            };
            answer(tally, generator, &trial, 0);
        }
    });
}

/// Lends buffers of the sheet's length, if it has one, and of one byte less, and others.
fn ask(tally: &mut Tally, generator: &mut Generator, trial: &Trial) {
    for length in [0, LONGEST] {
        answer(tally, generator, trial, length);
    }
    if let Some(right) = sheet_length(trial) {
        for length in [right - 1, right] {
            answer(tally, generator, trial, length);
        }
    }
    tally.trial_beyond(trial, &generator.bytes(LONGEST));
}

/// Compares what is answered, where the refusal is known.
fn answer(tally: &mut Tally, generator: &mut Generator, trial: &Trial, length: usize) {
    let buffer = generator.bytes(length);
    match first_no(trial, length) {
        Some(number) => tally.known_trial(trial, &buffer, &refuse(number, 0)),
        None => tally.trial(trial, &buffer),
    }
}

/// The number of the first question that gets a no.
fn first_no(trial: &Trial, buffer: usize) -> Option<u8> {
    let answers = [
        (3, (1..=6).contains(&trial.buyers)),
        (4, (1..=4).contains(&trial.lots)),
        (7, trial.top <= u32::from(GREATEST_WORTH)),
        (
            11,
            sheet_length(trial).is_some_and(|length| length <= buffer),
        ),
    ];
    let no = answers.into_iter().find(|(_, yes)| !yes);
    no.map(|(number, _)| number)
}

/// The length of a sheet with these buyers and lots, if there is one.
fn sheet_length(trial: &Trial) -> Option<usize> {
    match (trial.buyers, trial.lots) {
        (buyers @ 1..=6, lots @ 1..=4) => Some(length(buyers as usize, lots as usize)),
        _ => None,
    }
}
