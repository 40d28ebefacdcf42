//! Checks the names of crates/ and of the documents, and says what is wrong with them, a line for
//! each: what is named and not used, what the page of the claim rests on, what entries require, what
//! the rules cite and who cites them.

#![forbid(unsafe_code)]

use std::path::Path;
use std::process::ExitCode;

use comparison::names;

fn main() -> ExitCode {
    let root = Path::new(env!("CARGO_MANIFEST_DIR")).join("..");
    let found = match names::check(&root) {
        Ok(found) => found,
        Err(error) => {
            eprintln!("{}: {error}", root.display());
            return ExitCode::from(2);
        }
    };
    for line in found.reckoned.iter().chain(&found.wrong) {
        println!("{line}");
    }
    ExitCode::from(u8::from(!found.wrong.is_empty()))
}
