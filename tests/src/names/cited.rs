//! Names that a document cites, with the file that has to have them.

use std::path::Path;
use std::{fs, io};

use super::sources::{code, parts};

/// What stands before a name that is declared, and says of what kind it is.
const KINDS: [&str; 7] = ["record", "data", "fn", "struct", "enum", "const", "type"];

/// What may stand before a declaration.
const MARKS: [&str; 4] = ["pub", "abbrev", "unfoldable", "ghost"];

/// Names, and a file; or a file alone.
pub struct Citation<'a> {
    pub names: Vec<&'a str>,
    pub file: String,
}

impl Citation<'_> {
    /// What is wrong with it, a line for each: the file is not there, or lacks a name.
    pub fn wrong(&self, root: &Path) -> Vec<String> {
        let file = &self.file;
        match read(root, file) {
            Ok(text) => {
                let names = self.names.iter().filter(|name| !declares(&text, name));
                names.map(|name| format!("no {name} in {file}")).collect()
            }
            Err(_) => vec![format!("no file {file}")],
        }
    }
}

/// A file of the tree.
pub fn read(root: &Path, file: &str) -> io::Result<String> {
    fs::read_to_string(root.join(file))
}

/// What stands between backquotes.
pub fn quoted(text: &str) -> impl Iterator<Item = &str> {
    text.split('`').skip(1).step_by(2)
}

/// Whether a name is declared in a file: it is the first word of a line's code, as in
/// `name : type`, `name = term` and `name: type`, or the word after its kind, as in `fn name(`.
fn declares(text: &str, name: &str) -> bool {
    text.lines().any(|line| {
        let words: Vec<&str> = parts(code(line)).filter(|word| !word.is_empty()).collect();
        let first = words.iter().find(|word| !MARKS.contains(word));
        let kinds = words.windows(2).filter(|pair| KINDS.contains(&pair[0]));
        first == Some(&name) || kinds.map(|pair| bare(pair[1])).any(|known| known == name)
    })
}

/// A name without what it is generic over.
fn bare(name: &str) -> &str {
    name.split('<').next().unwrap_or(name)
}
