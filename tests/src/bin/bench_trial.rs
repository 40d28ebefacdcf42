//! Times the longest trial sheet of the greatest number, for which 6,553,500 draws are thrown away,
//! by the library and by the Rust reckoning, turn by turn.

#![forbid(unsafe_code)]

use std::hint::black_box;

use comparison::reckoning::trial::{drawn_sheet, Trial};
use comparison::timing::{median, nanoseconds};

const REPETITIONS: usize = 21;
const SHEETS: u32 = 5;

const TRIAL: Trial = Trial {
    number: u16::MAX,
    buyers: 6,
    lots: 4,
    top: 9_999,
};

fn main() {
    let [buyers, lots, top] = [TRIAL.buyers, TRIAL.lots, TRIAL.top].map(|number| number as usize);
    let library = || hokewhuni::drawn_sheet(black_box(TRIAL.number), buyers, lots, top);
    let rust = || drawn_sheet(black_box(&TRIAL));
    assert_eq!(library().ok(), rust().ok());

    let (mut by_library, mut by_rust) = (Vec::new(), Vec::new());
    for _ in 0..REPETITIONS {
        by_library.push(nanoseconds(SHEETS, library));
        by_rust.push(nanoseconds(SHEETS, rust));
    }
    let (by_library, by_rust) = (median(by_library), median(by_rust));
    println!(
        "trial sheet of number {}, medians of {REPETITIONS} × {SHEETS} sheets",
        TRIAL.number
    );
    println!("library: {:.1} ms", by_library / 1e6);
    println!("Rust: {:.1} ms", by_rust / 1e6);
    println!("library / Rust: {:.2}", by_library / by_rust);
}
