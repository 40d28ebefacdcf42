//! The example sheets, with the printed sales that stand beside them.

use std::fs::{self, File};
use std::io;
use std::path::{Path, PathBuf};

use super::{in_repository, program, SALE};
use crate::process::run_from;
use crate::reckoning::print::print_sale;
use crate::tally::Tally;

/// There are at least this many: the sales of the rules, the longest sheet, and one byte more.
const LEAST: usize = 18;

/// A sheet and its printed sale.
pub struct Example {
    pub path: PathBuf,
    pub sheet: Vec<u8>,
    pub sale: Vec<u8>,
}

impl Example {
    /// A settled sale's print begins with a field of 0.
    pub fn is_settled(&self) -> bool {
        self.sale.starts_with(b"     0")
    }

    /// The status of what prints the sale: 0 if it is settled, 1 if it is refused.
    pub fn status(&self) -> i32 {
        (!self.is_settled()).into()
    }
}

pub fn compare(tally: &mut Tally) {
    tally.group("examples", |tally| {
        for Example { path, sheet, sale } in tally.succeeds("the examples", examples()) {
            let name = path.display();
            let run = || run_from(&mut program(SALE), File::open(&path)?);
            tally.process(format_args!("the program, given {name}"), run, &sale);
            let reckoned = print_sale(&sheet);
            tally.text(format_args!("the Rust print of {name}"), &reckoned, &sale);
        }
    });
}

/// The examples in the order of their names, or what is wrong with them.
pub fn examples() -> Result<Vec<Example>, String> {
    let folder = in_repository("examples");
    let mut paths = Vec::new();
    for entry in fs::read_dir(&folder).map_err(|error| wrong_in(&folder, &error))? {
        paths.push(entry.map_err(|error| wrong_in(&folder, &error))?.path());
    }
    paths.retain(|path| path.extension().is_some_and(|ending| ending == "sheet"));
    paths.sort();
    if paths.len() < LEAST {
        let found = paths.len();
        return Err(format!("{found} sheets where {LEAST} are the least"));
    }
    paths.into_iter().map(example).collect()
}

fn example(path: PathBuf) -> Result<Example, String> {
    let read = |path: &Path| fs::read(path).map_err(|error| wrong_in(path, &error));
    Ok(Example {
        sheet: read(&path)?,
        sale: read(&path.with_extension("sale"))?,
        path,
    })
}

fn wrong_in(path: &Path, error: &io::Error) -> String {
    format!("{}: {error}", path.display())
}
