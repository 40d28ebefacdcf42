//! Runs every comparison of the library with the Rust reckoning, on two threads. SEED chooses the
//! random sheets.

#![forbid(unsafe_code)]

use std::process::ExitCode;

use comparison::halves::compare;
use comparison::sales;
use comparison::settled;
use comparison::sheets;
use comparison::trials;
use comparison::writing;

fn main() -> ExitCode {
    compare(
        |tally, generator| {
            sheets::compare(tally, generator);
            sales::compare(tally, generator);
            writing::compare(tally, generator);
            trials::compare_sizes(tally, generator);
            settled::compare(tally, generator);
        },
        |tally, generator| {
            sales::compare_direct(tally, generator);
            writing::compare_round_trips(tally, generator);
            trials::compare(tally, generator);
        },
    )
}
