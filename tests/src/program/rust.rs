//! The Rust crate, besides what the comparisons of the library say of it: its numbers and words are
//! the header's, its functions with a record of their own, its own tests, how it is built without
//! the library, and its example.

use std::collections::BTreeMap;
use std::env;
use std::fs::{self, File, OpenOptions};
use std::io;
use std::path::{Path, PathBuf};
use std::process::Command;
use std::time::Duration;

use hokewhuni::Refusal::{self, *};
use hokewhuni::{TrialRefusal, WriteRefusal};

use super::examples::examples;
use super::header::LONGEST_PRINT;
use super::inputs::KINDS;
use super::{in_repository, told};
use crate::generator::Generator;
use crate::process::{run, run_from, run_into, run_within, Ended};
use crate::reckoning::print::{LONGEST_RECORD, MOST_READ};
use crate::tally::{End, Tally};

/// Building may take this long.
const LIMIT: Duration = Duration::from_secs(300);

/// Inputs drawn of each kind.
const DRAWN: usize = 10;

/// Faults of the system by their numbers.
const NO_FILE: i32 = 2;
const BAD_DESCRIPTOR: i32 = 9;
const FOLDER: i32 = 21;
const NO_SPACE: i32 = 28;

/// What is no file to read, in the repository.
const UNREADABLE: [(&str, i32); 2] = [("examples/nowhere.sheet", NO_FILE), ("examples", FOLDER)];

/// The refusals in the order of their numbers.
const REFUSALS: [Refusal; 10] = [
    TooShort,
    FirstLine,
    BuyerCount,
    LotCount,
    WrongLength,
    Fault { place: 13 },
    WorthTooHigh { place: 13 },
    WorthFalls { place: 13 },
    RecordTooShort,
    NoSuchBuyer,
];

/// Those of writing, with their numbers.
const WRITE_REFUSALS: [(u8, WriteRefusal); 6] = [
    (3, WriteRefusal::BuyerCount),
    (4, WriteRefusal::LotCount),
    (5, WriteRefusal::WrongLength),
    (7, WriteRefusal::WorthTooHigh),
    (8, WriteRefusal::WorthFalls),
    (11, WriteRefusal::OutTooShort),
];

/// Those of a trial sheet, with their numbers.
const TRIAL_REFUSALS: [(u8, TrialRefusal); 4] = [
    (3, TrialRefusal::BuyerCount),
    (4, TrialRefusal::LotCount),
    (7, TrialRefusal::TopTooHigh),
    (11, TrialRefusal::OutTooShort),
];

/// What numbers mean in a list of the header.
type Meanings = BTreeMap<u8, String>;

pub fn compare(tally: &mut Tally, generator: &mut Generator) {
    tally.group("the Rust crate", |tally| {
        tally.succeeds("the crate's numbers", numbers());
        tally.succeeds("the crate's refusals", words());
        for (_, draw) in KINDS {
            for _ in 0..DRAWN {
                tally.own_record(&draw(generator));
            }
        }
        tally.succeeds("the crate without the library", without_library());
        tally.succeeds("the crate's tests", own_tests());
    });
    tally.group("the Rust example", |tally| {
        let built = build("sale").map(Some);
        if let Some(sale) = tally.succeeds("rust/examples/sale.rs", built) {
            sales(tally, &sale);
            faults(tally, &sale);
        }
    });
}

/// The header's three numbers.
fn numbers() -> Result<(), String> {
    let numbers = [
        hokewhuni::SHEET_BYTES,
        hokewhuni::RECORD_BYTES,
        hokewhuni::PRINT_BYTES,
    ];
    let expected = [MOST_READ, LONGEST_RECORD, LONGEST_PRINT];
    let wrong = || format!("{numbers:?} where {expected:?} are the header's");
    (numbers == expected).then_some(()).ok_or_else(wrong)
}

/// Each refusal says what the header says of its number, and may say more. The header has a list for
/// all questions, one for those that are others of writing, and one for those of a trial sheet.
fn words() -> Result<(), String> {
    let header = in_repository("include/hokewhuni.h");
    let lists = meanings(&told(fs::read_to_string(header))?);
    let [all, writing, trials] = &lists[..] else {
        return Err(format!("the header has {} lists of meanings", lists.len()));
    };
    let check = |number: u8, (says, told): (String, u8), others: &Meanings| {
        let meaning = others.get(&number).or(all.get(&number));
        let meaning = meaning.map_or("", String::as_str);
        let right = told == number && !meaning.is_empty() && says.starts_with(meaning);
        let wrong = || format!("{told}: \"{says}\" where {number} means \"{meaning}\"");
        right.then_some(()).ok_or_else(wrong)
    };
    for (number, refusal) in (1..).zip(REFUSALS) {
        check(number, (refusal.to_string(), refusal.number()), all)?;
    }
    for (number, refusal) in WRITE_REFUSALS {
        check(number, (refusal.to_string(), refusal.number()), writing)?;
    }
    for (number, refusal) in TRIAL_REFUSALS {
        check(number, (refusal.to_string(), refusal.number()), trials)?;
    }
    Ok(())
}

/// The header's lists, in its order: lines that begin with a number, each with those after it up to
/// the next. An empty line ends a list. What a number is only of is left out.
fn meanings(header: &str) -> Vec<Meanings> {
    let lines = header
        .lines()
        .map(|line| line.trim_start_matches(" *").trim());
    let lines: Vec<&str> = lines.collect();
    let paragraphs = lines.split(|line| line.is_empty());
    let lists = paragraphs.map(|lines| list(lines).collect::<Meanings>());
    lists.filter(|list| !list.is_empty()).collect()
}

/// The numbers and meanings of a paragraph's lines.
fn list<'a>(lines: &'a [&str]) -> impl Iterator<Item = (u8, String)> + 'a {
    let begins = |line: &str| {
        let (number, meaning) = line.split_once("  ")?;
        Some((number.parse().ok()?, meaning.to_owned()))
    };
    let items = lines.chunk_by(move |_, line| begins(line).is_none());
    items.filter_map(move |item| {
        let (number, meaning) = begins(item[0])?;
        let whole = [&[meaning.as_str()], &item[1..]].concat().join(" ");
        Some((number, only(&whole)))
    })
}

/// A meaning without what it is only of.
fn only(meaning: &str) -> String {
    let of = meaning.strip_prefix("only of ");
    let rest = of.map(|rest| rest.split_once(": ").unwrap_or_default().1);
    rest.unwrap_or(meaning).to_owned()
}

/// Where the library is not found, the build says what to do.
fn without_library() -> Result<(), String> {
    let mut command = cargo("check")?;
    command.env("HOKEWHUNI_LIB", in_repository("examples"));
    let ended = told(run_within(&mut command, LIMIT))?;
    let errors = String::from_utf8_lossy(&ended.errors);
    let said = "which has no libhokewhuni.a: run `tools/staticlib` in the repository";
    match ended.status {
        Some(status) if !status.success() && errors.contains(said) => Ok(()),
        _ => Err(errors.into_owned()),
    }
}

/// The examples of its documentation, and other tests if it has any.
fn own_tests() -> Result<(), String> {
    let output = succeed(&mut cargo("test")?)?;
    let output = String::from_utf8_lossy(&output);
    let results = output
        .lines()
        .filter_map(|line| line.strip_prefix("test result: ok. "));
    match results.filter(|result| !result.starts_with("0 ")).count() {
        0 => Err(format!("no test was run: {output}")),
        _ => Ok(()),
    }
}

/// Builds an example of the crate.
fn build(example: &str) -> Result<PathBuf, String> {
    succeed(cargo("build")?.args(["--example", example]))?;
    Ok(folder()?.join("release/examples").join(example))
}

/// A command of cargo that says nothing but warnings and errors.
fn cargo(name: &str) -> Result<Command, String> {
    let mut command = Command::new("cargo");
    command
        .args([name, "--quiet", "--release", "--offline", "--locked"])
        .arg("--manifest-path")
        .arg(in_repository("rust/Cargo.toml"))
        .arg("--target-dir")
        .arg(folder()?);
    Ok(command)
}

/// What is built is put beside the running program.
fn folder() -> Result<PathBuf, String> {
    Ok(told(env::current_exe())?.with_file_name("crate"))
}

/// What a command writes that has to succeed without a warning.
fn succeed(command: &mut Command) -> Result<Vec<u8>, String> {
    let ended = run_within(command, LIMIT).map_err(|error| format!("cargo: {error}"))?;
    match ended.status {
        Some(status) if status.success() && ended.errors.is_empty() => Ok(ended.output),
        _ => Err(String::from_utf8_lossy(&[ended.output, ended.errors].concat()).into_owned()),
    }
}

/// Each example sheet by name, and on standard input.
fn sales(tally: &mut Tally, sale: &Path) {
    for example in tally.succeeds("the examples", examples()) {
        let refusal = hokewhuni::read_sheet(&example.sheet).err();
        let said = refusal.map(|refusal| format!("sale: {refusal}\n"));
        let end = End {
            status: refusal.is_some().into(),
            output: &example.sale,
            errors: said.as_deref().unwrap_or_default().as_bytes(),
        };
        let path = &example.path;
        let named = || run(Command::new(sale).arg(path), b"");
        tally.process_end(format_args!("sale {}", path.display()), named, &end);
        let piped = || run_from(&mut Command::new(sale), File::open(path)?);
        tally.process_end(format_args!("sale <{}", path.display()), piped, &end);
    }
}

/// Sheets that cannot be read, and outputs that cannot be written.
fn faults(tally: &mut Tally, sale: &Path) {
    let mut fault = |status: i32, name: &str, error: i32, run: &dyn Fn() -> io::Result<Ended>| {
        let error = io::Error::from_raw_os_error(error);
        let said = format!("sale: {name}: {error}\n");
        let end = End {
            status,
            output: b"",
            errors: said.as_bytes(),
        };
        tally.process_end(format_args!("sale, {name}: {error}"), run, &end);
    };
    for (path, error) in UNREADABLE {
        let path = in_repository(path);
        let named = || run(Command::new(sale).arg(&path), b"");
        fault(2, &path.display().to_string(), error, &named);
    }
    let writing = |path: &str| OpenOptions::new().write(true).open(path);
    fault(2, "standard input", BAD_DESCRIPTOR, &|| {
        run_from(&mut Command::new(sale), writing("/dev/null")?)
    });
    fault(3, "standard output", NO_SPACE, &|| {
        run_into(&mut Command::new(sale), b"", writing("/dev/full")?)
    });
    fault(3, "standard output", BAD_DESCRIPTOR, &|| {
        run_into(&mut Command::new(sale), b"", File::open("/dev/null")?)
    });
}
