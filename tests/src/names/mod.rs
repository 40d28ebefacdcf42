//! The check of names: what crates/ names and does not use, what the entries require, what the page
//! of the claim takes from elsewhere, and what the rules and the list of theorems name.

use std::path::Path;
use std::{fs, io};

use entries::Entries;
use functions::functions;

mod antt;
mod cited;
mod entries;
mod functions;
mod origin;
mod page;
mod proved;
mod rules;
mod sources;
mod unused;

/// What checks found: what they reckoned, and what is wrong, a line for each.
#[derive(Default)]
pub struct Found {
    pub reckoned: Vec<String>,
    pub wrong: Vec<String>,
}

/// Checks the repository at a root.
pub fn check(root: &Path) -> io::Result<Found> {
    let sources = sources::collect(root)?;
    let crates = fs::read_to_string(root.join("crates.txt"))?;
    let documents = entries::documents(root)?;
    let functions = functions(&sources);
    let entries = Entries::new(&documents, &functions);
    let mut found = Found {
        wrong: unused::check(&crates, &sources),
        ..Found::default()
    };
    entries.check(&sources, &mut found);
    page::check(&sources, &entries.words(&sources), &mut found);
    rules::check(root, &sources::collect_texts(root)?, &mut found)?;
    proved::check(root, &mut found)?;
    Ok(found)
}
