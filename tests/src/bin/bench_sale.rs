//! Times the sales of trial sheets 0 to 19, of six buyers, four lots and top 9,999: by the library,
//! by the plain sale, which tries every allocation of each economy once a round, by the same sale
//! where it skips looks at demand sets, and by the Rust reckoning, which is sharper: it adds up each
//! allocation once a round for all economies. All have to be alike. Then it times the program
//! `sale_main`. `compare COUNT` compares the library with the reckoning on many random sheets
//! instead. Both take long unless built for release.

#![forbid(unsafe_code)]

use std::env;
use std::fs;
use std::process::ExitCode;

use comparison::generator::{bytes_of, Generator};
use comparison::halves::conclude;
use comparison::process::run;
use comparison::program::{program, program_path, told, SALE};
use comparison::reckoning::print::printed;
use comparison::reckoning::sale::{record_needed, Sale};
use comparison::reckoning::sheet::{read_sheet, Refusal};
use comparison::reckoning::{plain, sale};
use comparison::tally::{bare, Tally};
use comparison::timing::{processor_of_children, timed, Time};
use hokewhuni::raw;

const SEED: u64 = 1;

/// The trial sheets, from number 0 on.
const SHEETS: u16 = 20;
const BUYERS: usize = 6;
const LOTS: usize = 4;
const TOP: usize = 9_999;

/// The library sells each sheet so many times, and so does the program.
const TURNS: usize = 5;

/// What was asked: the library's parts of the times of the plain sales are at most this.
const ASKED: f64 = 1.0 / 2.0;

/// What we aim at: the library's parts of the times of the plain sale and of the sharper one, and
/// milliseconds of the program.
const PLAIN: f64 = 1.0 / 400.0;
const SHARPER: f64 = 1.0 / 100.0;
const PROGRAM: f64 = 20.0;

fn main() -> ExitCode {
    let arguments: Vec<String> = env::args().skip(1).collect();
    let arguments: Vec<&str> = arguments.iter().map(String::as_str).collect();
    match arguments[..] {
        [] => {
            return time().unwrap_or_else(|wrong| {
                println!("{wrong}");
                ExitCode::FAILURE
            })
        }
        ["compare", count] => {
            if let Ok(count) = count.parse() {
                return compare(count);
            }
        }
        _ => {}
    }
    eprintln!("usage: bench_sale [compare COUNT]");
    ExitCode::FAILURE
}

/// A sheet, and its sale by the library.
struct Sold {
    sheet: Vec<u8>,
    answer: raw::Sale,
    record: Vec<u8>,
    /// What is printed of it.
    print: Vec<u8>,
}

/// A sale in Rust.
type Way = fn(&[u8], &mut [u8]) -> Result<Sale, Refusal>;

const WAYS: [(&str, Way); 3] = [
    ("plain", plain::run_sale),
    ("skipping", plain::run_sale_skipping),
    ("sharper", sale::run_sale),
];

/// Times the sales by each and the program, and prints the times and what they come to.
fn time() -> Result<ExitCode, String> {
    println!("machine: {}", machine());
    let sales: Vec<Sold> = (0..SHEETS).map(sold).collect();
    let rounds: u32 = sales.iter().map(|sold| sold.answer.rounds).sum();
    println!(
        "sales: trial sheets 0 to {}, {BUYERS} buyers, {LOTS} lots, top {TOP}; {rounds} rounds",
        SHEETS - 1
    );
    let (library, times) = by_each(&sales)?;
    println!("alike by all: records, rounds, last prices, owners, discounts, payments, prints");
    println!("one thread, sheet by sheet: by the library the median of {TURNS} sales, in Rust one");
    print_time("library", library, rounds);
    for ((name, _), time) in WAYS.iter().zip(times) {
        print_time(name, time, rounds);
    }
    let mut parts = [0.0; WAYS.len()];
    for (place, (name, _)) in WAYS.iter().enumerate() {
        parts[place] = part(name, library, times[place]);
    }
    let [plain, skipping, sharper] = parts;
    let asked = plain.max(skipping) <= ASKED;
    println!("asked, 1/2 of plain and of skipping: {}", yes_or_no(asked));
    println!("aim, 1/400 of plain: {}", yes_or_no(plain <= PLAIN));
    println!("aim, 1/100 of sharper: {}", yes_or_no(sharper <= SHARPER));
    time_program(&sales)?;
    Ok(if asked {
        ExitCode::SUCCESS
    } else {
        ExitCode::FAILURE
    })
}

fn print_time(name: &str, time: Time, rounds: u32) {
    let Time { wall, processor } = time;
    let each = 1e6 * processor / f64::from(rounds);
    println!("{name:>8}: {wall:7.3} s, processor {processor:7.3} s, {each:6.3} µs a round");
}

/// The processor's name.
fn machine() -> String {
    let file = fs::read_to_string("/proc/cpuinfo").unwrap_or_default();
    let line = file.lines().find(|line| line.starts_with("model name"));
    let name = line.and_then(|line| line.split_once(": "));
    name.map_or("unknown", |(_, name)| name).to_string()
}

/// A trial sheet, sold once, with a record of question 9's sum.
fn sold(number: u16) -> Sold {
    let sheet = hokewhuni::drawn_sheet(number, BUYERS, LOTS, TOP).expect("a size in range");
    let mut record = vec![0; record_needed(&read_sheet(&sheet).expect("a good sheet"))];
    Sold {
        answer: raw::run_sale(&sheet, &mut record),
        print: hokewhuni::printed_sale(&sheet),
        sheet,
        record,
    }
}

/// The times of the sales by the library and in each way in Rust, which have to be alike. A sheet is
/// sold by all before the next one is, so that what slows the machine for a while slows all.
fn by_each(sales: &[Sold]) -> Result<(Time, [Time; WAYS.len()]), String> {
    let (mut library, mut times) = (Time::default(), [Time::default(); WAYS.len()]);
    for (number, sold) in sales.iter().enumerate() {
        library += by_library(sold)?;
        for ((name, way), time) in WAYS.iter().zip(&mut times) {
            let mut record = vec![0; sold.record.len()];
            let (sale, taken) = told(timed(|| way(&sold.sheet, &mut record)))?;
            let alike = record == sold.record && bare::sale(&sale) == sold.answer;
            if !alike || printed(&sale) != sold.print {
                return Err(format!("library and {name} differ on trial sheet {number}"));
            }
            *time += taken;
        }
    }
    Ok((library, times))
}

/// The median time of some sales by the library.
fn by_library(sold: &Sold) -> Result<Time, String> {
    let mut record = vec![0; sold.record.len()];
    let mut times = Vec::new();
    for _ in 0..TURNS {
        let (answer, time) = told(timed(|| raw::run_sale(&sold.sheet, &mut record)))?;
        if answer != sold.answer || record != sold.record {
            return Err("two sales of one sheet by the library differ".to_string());
        }
        times.push(time);
    }
    Ok(Time::median(&times))
}

/// Prints the library's part of a time, and answers the greater of the two: on the processor or by
/// the clock.
fn part(name: &str, library: Time, other: Time) -> f64 {
    let processor = library.processor / other.processor;
    let wall = library.wall / other.wall;
    let [by_processor, by_wall] = [processor, wall].map(|part| (1.0 / part).round());
    println!("library / {name}: 1/{by_processor} of processor time, 1/{by_wall} by the clock");
    processor.max(wall)
}

/// Runs the program on each sheet, if it is built, and prints the mean of its processor time.
fn time_program(sales: &[Sold]) -> Result<(), String> {
    if !program_path(SALE).is_file() {
        println!("the program {SALE} is not built");
        return Ok(());
    }
    let before = told(processor_of_children())?;
    for _ in 0..TURNS {
        for (number, sold) in sales.iter().enumerate() {
            let ended = told(run(&mut program(SALE), &sold.sheet))?;
            if !ended.with(0) || ended.output != sold.print {
                return Err(format!(
                    "the program's sale of trial sheet {number} differs"
                ));
            }
        }
    }
    let time = told(processor_of_children())? - before;
    let each = 1e3 * time / (TURNS * sales.len()) as f64;
    println!("program {SALE}: {each:.1} ms of processor time a sheet, mean of {TURNS} runs each");
    println!("aim, {PROGRAM} ms a sheet: {}", yes_or_no(each <= PROGRAM));
    Ok(())
}

fn yes_or_no(reached: bool) -> &'static str {
    if reached {
        "yes"
    } else {
        "no"
    }
}

/// Compares whole answers and records of this many sheets.
fn compare(count: usize) -> ExitCode {
    let mut tally = Tally::new(SEED);
    let mut generator = Generator::new(SEED);
    for _ in 0..count {
        let sheet = generator.full();
        let record = generator.bytes(record_needed(&sheet));
        tally.sale(&bytes_of(&sheet), &record);
    }
    conclude(&[tally])
}
