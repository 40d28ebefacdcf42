//! Prints the sale of a lot sheet. The sheet is the file named, or standard input if none is:
//!
//! ```text
//! cargo run --example sale ../examples/table-3.sheet
//! ```
//!
//! The status is 0 of a settled sale, 1 of a refusal, which standard error has in words, 2 where
//! the sheet cannot be read, and 3 where the sale cannot be printed. A standard stream that is
//! closed counts as `/dev/null`: Rust opens that in its place.

use std::env;
use std::fmt::Display;
use std::fs::File;
use std::io::{self, Read, Write};
use std::os::fd::AsFd;
use std::path::Path;
use std::process::ExitCode;

use hokewhuni::{printed_sale, read_sheet, SHEET_BYTES};

fn main() -> ExitCode {
    let sheet = match sheet() {
        Ok(sheet) => sheet,
        Err(error) => return end(2, error),
    };
    if let Err(error) = print(&printed_sale(&sheet)) {
        return end(3, format_args!("standard output: {error}"));
    }
    match read_sheet(&sheet) {
        Ok(_) => ExitCode::SUCCESS,
        Err(refusal) => end(1, refusal),
    }
}

/// The bytes of the sheet, or what is wrong.
fn sheet() -> Result<Vec<u8>, String> {
    let arguments: Vec<_> = env::args_os().skip(1).collect();
    let (name, file) = match &arguments[..] {
        [] => (Path::new("standard input"), stream(io::stdin())),
        [name] => (Path::new(name), File::open(name)),
        _ => return Err(String::from("usage: sale [FILE]")),
    };
    let bytes = file.and_then(read);
    bytes.map_err(|error| format!("{}: {error}", name.display()))
}

/// As many bytes as tell a refusal; a longer sheet is cut.
fn read(file: File) -> io::Result<Vec<u8>> {
    let mut bytes = Vec::new();
    file.take(SHEET_BYTES as u64).read_to_end(&mut bytes)?;
    Ok(bytes)
}

fn print(bytes: &[u8]) -> io::Result<()> {
    stream(io::stdout())?.write_all(bytes)
}

/// A standard stream as a file, for which it is an error not to be open for reading or writing;
/// `Stdin` and `Stdout` pass over that.
fn stream(stream: impl AsFd) -> io::Result<File> {
    Ok(File::from(stream.as_fd().try_clone_to_owned()?))
}

/// Says on standard error what happened, if that can be written.
fn end(status: u8, what: impl Display) -> ExitCode {
    let _ = writeln!(io::stderr(), "sale: {what}");
    ExitCode::from(status)
}
