//! Trial sheets made again, at once and after others, refused ones too: each call starts anew (rule
//! 12.3).

use super::any_trial;
use crate::generator::Generator;
use crate::reckoning::trial::Trial;
use crate::tally::Tally;

/// Sheets that are made again.
const DRAWN: usize = 300;

/// Sheet numbers are below this.
const NUMBERS: usize = 100;

pub fn compare(tally: &mut Tally, generator: &mut Generator) {
    tally.group("trial sheets made again", |tally| {
        for _ in 0..DRAWN {
            let trial = any_trial(generator, NUMBERS);
            tally.trial_again(&trial, &others(generator, &trial));
        }
    });
}

/// Any other, one each with another number, size and top, and one that is refused.
fn others(generator: &mut Generator, trial: &Trial) -> [Trial; 5] {
    let any = any_trial(generator, NUMBERS);
    let other_number = Trial {
        number: trial.number ^ 1,
        ..*trial
    };
    let other_size = Trial {
        buyers: any.buyers,
        lots: any.lots,
        ..*trial
    };
    let other_top = Trial {
        top: any.top,
        ..*trial
    };
    let refused = Trial {
        top: 10_000,
        ..*trial
    };
    [any, other_number, other_size, other_top, refused]
}
