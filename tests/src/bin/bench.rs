//! Times the reading of the longest sheet by the library and by the Rust reader, turn by turn.

#![forbid(unsafe_code)]

use std::hint::black_box;

use comparison::generator::{bytes_of, Generator};
use comparison::reckoning::sheet::{read_sheet, MOST_BUYERS, MOST_LOTS};
use comparison::timing::{median, nanoseconds};
use hokewhuni::raw;

const SEED: u64 = 1;
const REPETITIONS: usize = 51;
const READINGS: u32 = 20_000;

fn main() {
    let sheet = Generator::new(SEED).monotone(MOST_BUYERS, MOST_LOTS);
    let bytes = bytes_of(&sheet);
    assert_eq!(raw::read_sheet(&bytes).number, 0);
    assert_eq!(read_sheet(&bytes), Ok(sheet));

    let (mut library, mut rust) = (Vec::new(), Vec::new());
    for _ in 0..REPETITIONS {
        library.push(nanoseconds(READINGS, || raw::read_sheet(black_box(&bytes))));
        rust.push(nanoseconds(READINGS, || read_sheet(black_box(&bytes))));
    }
    let (library, rust) = (median(library), median(rust));
    println!(
        "read_sheet of {} bytes, medians of {REPETITIONS} × {READINGS} readings",
        bytes.len()
    );
    println!("library: {library:.0} ns");
    println!("Rust: {rust:.0} ns");
    println!("library / Rust: {:.2}", library / rust);
}
