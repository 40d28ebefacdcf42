//! A run of many comparisons in two halves, at once on two threads.

use std::env;
use std::process::ExitCode;
use std::thread;

use crate::generator::Generator;
use crate::tally::Tally;

const SEED: u64 = 0x0107_5ee7_5a1e_0001;

/// Runs the two halves of the groups, each with a seed of its own.
pub fn compare(
    first: impl FnOnce(&mut Tally, &mut Generator),
    second: impl FnOnce(&mut Tally, &mut Generator) + Send,
) -> ExitCode {
    let Some(seed) = seed() else {
        eprintln!("SEED is a number of 64 bits, base ten or 0x and base sixteen");
        return ExitCode::FAILURE;
    };
    println!("seed {seed:#x}");
    let seeds = [seed, Generator::new(seed).draw()];
    let mut tallies = seeds.map(Tally::new);
    let [one, other] = &mut tallies;
    thread::scope(|scope| {
        scope.spawn(|| second(other, &mut Generator::new(seeds[1])));
        first(one, &mut Generator::new(seeds[0]));
    });
    conclude(&tallies)
}

/// Prints the reports of tallies, and then how many passed and failed.
pub fn conclude(tallies: &[Tally]) -> ExitCode {
    for tally in tallies {
        print!("{}", tally.report());
    }
    let passed: u64 = tallies.iter().map(Tally::passed).sum();
    let failed: u64 = tallies.iter().map(Tally::failed).sum();
    println!("{passed} passed, {failed} failed");
    match failed {
        0 => ExitCode::SUCCESS,
        _ => ExitCode::FAILURE,
    }
}

/// The seed that the environment names, or the fixed one.
fn seed() -> Option<u64> {
    let Some(text) = env::var_os("SEED") else {
        return Some(SEED);
    };
    let text = text.to_str()?;
    match text.strip_prefix("0x") {
        Some(digits) => u64::from_str_radix(digits, 16).ok(),
        None => text.parse().ok(),
    }
}
