//! The tables of theorems in docs/PROVED.md: each theorem stands in the file that its row names.

use std::collections::BTreeSet;
use std::io;
use std::path::Path;

use super::cited::{quoted, read, Citation};
use super::Found;

const PROVED: &str = "docs/PROVED.md";

/// The first row of these tables.
const HEADING: &str = "| theorem | says | file |";

/// What the folders of theorems end with.
const FOLDER: &str = "/proofs";

pub fn check(root: &Path, found: &mut Found) -> io::Result<()> {
    let document = read(root, PROVED)?;
    let rows = rows(&document);
    for row in &rows {
        let wrong = row.wrong(root);
        found
            .wrong
            .extend(wrong.iter().map(|line| format!("{PROVED}: {line}")));
    }
    if rows.is_empty() {
        found.wrong.push(format!("{PROVED}: no table of theorems"));
    }
    let theorems: usize = rows.iter().map(|row| row.names.len()).sum();
    let files: BTreeSet<&String> = rows.iter().map(|row| &row.file).collect();
    let files = files.len();
    found
        .reckoned
        .push(format!("{PROVED}: {theorems} theorems in {files} files"));
    Ok(())
}

/// The rows of the tables. Their files are in the folder that the text above a table names first,
/// or in that which the row names.
fn rows(document: &str) -> Vec<Citation<'_>> {
    let mut rows = Vec::new();
    let mut folder = "";
    let mut in_table = false;
    for line in document.lines() {
        if !line.starts_with('|') {
            folder = folder_in(line).unwrap_or(folder);
        }
        in_table = line == HEADING || in_table && line.starts_with('|');
        if in_table && line != HEADING {
            rows.extend(row(line, folder));
        }
    }
    rows
}

/// The theorems of a row, and their file.
fn row<'a>(line: &'a str, folder: &str) -> Option<Citation<'a>> {
    let mut cells = line.split('|').skip(1);
    let (theorems, file) = (cells.next()?, cells.nth(1)?);
    let name = file.split_whitespace().next()?;
    let folder = folder_in(file).unwrap_or(folder);
    let names: Vec<&str> = quoted(theorems).collect();
    (!names.is_empty()).then(|| Citation {
        names,
        file: format!("{folder}/{name}.antt"),
    })
}

/// The first folder of theorems that a text names.
fn folder_in(text: &str) -> Option<&str> {
    quoted(text).find(|name| name.ends_with(FOLDER))
}
