//! Times the answer to whether prices are settled, for six buyers and four lots and from the bytes
//! of the sheet: at the last prices of its sale, which are settled; and where the economy of all
//! buyers says no, at zero prices and at those of the middle round. Each is answered by the library
//! and by the Rust reckoning's full definition, turn by turn. Times are on the processor. It fails if
//! the library takes more than a third of the time at the last prices where the answer is no.

#![forbid(unsafe_code)]

use std::hint::black_box;
use std::io;
use std::process::ExitCode;

use comparison::generator::{bytes_of, Generator};
use comparison::reckoning::demand::Prices;
use comparison::reckoning::round::{Market, Round};
use comparison::reckoning::settled::{settled_at, without_equilibrium};
use comparison::tally::bare;
use comparison::timing::{median, timed};
use hokewhuni::raw;

const SEED: u64 = 1;
const REPETITIONS: usize = 51;
const ANSWERS: usize = 50;

/// What was asked: the part of the time at the last prices that a no may take.
const ASKED: f64 = 1.0 / 3.0;

/// The tables, the settled one first.
const NAMES: [&str; 3] = ["last prices", "zero prices", "middle prices"];

fn main() -> io::Result<ExitCode> {
    let sheet = Generator::new(SEED).full();
    let bytes = bytes_of(&sheet);
    let market = Market::new(&sheet);
    let (sale, record) = hokewhuni::recorded_sale(&bytes).expect("the sheet is good");
    let middle = prices_after(&market, &record[..record.len() / 2]);
    let tables = [sale.prices, Prices::default(), middle];
    assert_eq!(without_equilibrium(&market, &tables[0]), []);
    for prices in &tables[1..] {
        assert_eq!(without_equilibrium(&market, prices).first(), Some(&0));
    }

    println!(
        "settled_at of {} bytes, medians of {REPETITIONS} × {ANSWERS} answers",
        bytes.len()
    );
    let times = times(&bytes, &tables)?;
    for (name, [library, rust]) in NAMES.iter().zip(&times) {
        let part = library / rust;
        println!("{name}: library {library:.1} µs, Rust {rust:.1} µs, library / Rust {part:.2}");
    }
    let mut asked = true;
    for (name, [library, _]) in NAMES.iter().zip(&times).skip(1) {
        let part = library / times[0][0];
        println!("library, {name} / {}: {part:.2}", NAMES[0]);
        asked &= part <= ASKED;
    }
    println!("asked, at most 1/3: {}", if asked { "yes" } else { "no" });
    Ok(if asked {
        ExitCode::SUCCESS
    } else {
        ExitCode::FAILURE
    })
}

/// The prices of a sale after these rounds.
fn prices_after(market: &Market, sets: &[u8]) -> Prices {
    let mut prices = Prices::default();
    for &set in sets {
        Round::new(market, &prices).raise(set, &mut prices);
    }
    prices
}

/// Microseconds of an answer at each table, by the library and in Rust.
fn times(sheet: &[u8], tables: &[Prices; 3]) -> io::Result<[[f64; 2]; 3]> {
    let mut times: [[Vec<f64>; 2]; 3] = Default::default();
    for _ in 0..REPETITIONS {
        for (prices, [library, rust]) in tables.iter().zip(&mut times) {
            let flat = bare::flat(prices);
            library.push(microseconds(|| raw::settled_at(black_box(sheet), &flat))?);
            rust.push(microseconds(|| settled_at(black_box(sheet), prices))?);
        }
    }
    Ok(times.map(|both| both.map(median)))
}

/// The time of one answer on the processor, as the mean of many.
fn microseconds<T>(answer: impl Fn() -> T) -> io::Result<f64> {
    let answers = || {
        for _ in 0..ANSWERS {
            black_box(answer());
        }
    };
    let ((), time) = timed(answers)?;
    Ok(1e6 * time.processor / ANSWERS as f64)
}
