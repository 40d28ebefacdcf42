//! The tests of the programs that print a sale, write a sheet and make a trial sheet, as processes; of
//! the command that builds, runs and installs them; of the C header and example, which are compiled for it; of the
//! Rust crate, which is built for it; and of the teacher's page.

use std::env;
use std::fmt::Display;
use std::path::{Path, PathBuf};
use std::process::Command;
use std::time::Duration;

use crate::generator::Generator;
use crate::tally::Tally;

mod building;
mod command;
mod compiling;
mod examples;
mod folder;
mod header;
mod inputs;
mod installing;
mod line_ends;
mod lists;
mod makers;
mod memory;
mod office;
mod pieces;
mod rust;
mod streams;
mod teacher;
mod trial_inputs;
mod trials;
mod writing;

/// Building and proving may take this long.
const BUILDING: Duration = Duration::from_secs(1_800);

/// Runs the groups of random inputs.
pub fn compare_inputs(tally: &mut Tally, generator: &mut Generator) {
    inputs::compare(tally, generator);
    lists::compare(tally, generator);
    trial_inputs::compare(tally, generator);
    pieces::compare(tally, generator);
}

/// Runs all other groups.
pub fn compare(tally: &mut Tally, generator: &mut Generator) {
    examples::compare(tally);
    streams::compare(tally);
    office::compare(tally);
    header::compare(tally, generator);
    memory::compare(tally, generator);
    rust::compare(tally, generator);
    building::compare(tally);
    installing::compare(tally);
    command::compare(tally, generator);
    writing::compare(tally, generator);
    trials::compare(tally, generator);
    teacher::compare(tally);
    line_ends::compare(tally);
}

/// A path in the repository.
fn in_repository(path: &str) -> PathBuf {
    Path::new(env!("CARGO_MANIFEST_DIR")).join("..").join(path)
}

/// An error as what is told of it.
pub fn told<T>(result: Result<T, impl Display>) -> Result<T, String> {
    result.map_err(|error| error.to_string())
}

/// The programs, by their names.
pub const SALE: &str = "sale_main";
const WRITE: &str = "write_main";
const TRIAL: &str = "trial_main";

/// Where a program is: where `rt` makes it of its crate. HOKEWHUNI_PROGRAMS names another folder.
pub fn program_path(name: &str) -> PathBuf {
    match env::var_os("HOKEWHUNI_PROGRAMS") {
        Some(folder) => Path::new(&folder).join(name),
        None => in_repository("crates").join(name).join("out").join(name),
    }
}

pub fn program(name: &str) -> Command {
    Command::new(program_path(name))
}
