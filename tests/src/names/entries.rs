//! The entries: the functions of the documents' table, and those that C can call. They require
//! nothing, and ensure something by a definition of ours. What C can call has the contract of a
//! function of the same name in Rattle.

use std::collections::BTreeSet;
use std::path::Path;
use std::{fs, io};

use super::functions::Function;
use super::origin::Name;
use super::sources::Source;
use super::Found;

/// Where the table of functions may stand.
const DOCUMENTS: [&str; 2] = ["README.md", "docs/PROVED.md"];

/// Its first row.
const HEADING: &str = "| function | answers | definition |";

pub struct Entries<'a> {
    /// The names in the table.
    listed: BTreeSet<&'a str>,
    /// The public functions of these names.
    found: Vec<&'a Function<'a>>,
    /// Those that C can call.
    foreign: Vec<&'a Function<'a>>,
    /// The public functions of the same names in Rattle.
    namesakes: Vec<&'a Function<'a>>,
}

/// The texts of the documents that are there.
pub fn documents(root: &Path) -> io::Result<Vec<String>> {
    let paths = DOCUMENTS.map(|document| root.join(document));
    let there = paths.iter().filter(|path| path.exists());
    there.map(fs::read_to_string).collect()
}

impl<'a> Entries<'a> {
    pub fn new(documents: &'a [String], functions: &'a [Function<'a>]) -> Self {
        let listed: BTreeSet<&str> = documents.iter().flat_map(|text| listed(text)).collect();
        let is_listed = |function: &&Function| listed.contains(function.name);
        let (foreign, rattle): (Vec<&Function>, Vec<&Function>) =
            functions.iter().partition(|function| function.is("extern"));
        let others: Vec<&Function> = rattle
            .into_iter()
            .filter(|function| function.is("pub"))
            .collect();
        let is_namesake = |other: &&&Function| foreign.iter().any(|it| it.name == other.name);
        Entries {
            namesakes: others.iter().filter(is_namesake).copied().collect(),
            found: others.into_iter().filter(is_listed).collect(),
            foreign,
            listed,
        }
    }

    pub fn check(&self, sources: &[Source], found: &mut Found) {
        let (listed, foreign) = (self.listed.len(), self.foreign.len());
        let asking = self.all().filter(|entry| entry.asks()).count();
        found.reckoned.push(format!(
            "the entries: {listed} functions, {foreign} that C can call; {asking} with a `requires`"
        ));
        found.wrong.extend(self.missing());
        for entry in self.differing() {
            let namesake = "has not the contract of a function of its name in Rattle";
            found.wrong.push(format!("{entry} {namesake}"));
        }
        for entry in self.all() {
            if entry.asks() {
                found.wrong.push(format!("{entry} has a `requires`"));
            }
            if entry.ensured(sources).is_empty() {
                let nothing = "has no `ensures` by a definition of ours";
                found.wrong.push(format!("{entry} {nothing}"));
            }
        }
    }

    /// What C can call and has another contract than its namesakes, or has none.
    fn differing(&self) -> impl Iterator<Item = &Function<'a>> {
        let foreign = self.foreign.iter().copied();
        foreign.filter(|entry| {
            let others = self.namesakes.iter();
            let mut others = others.filter(|other| other.name == entry.name).peekable();
            others.peek().is_none() || others.any(|other| !entry.promises_as(other))
        })
    }

    /// What the documents or the crates lack.
    fn missing(&self) -> Vec<String> {
        let mut missing = Vec::new();
        if self.listed.is_empty() {
            let documents = DOCUMENTS.join(" nor ");
            missing.push(format!("neither {documents} has a table of functions"));
        }
        if self.foreign.is_empty() {
            missing.push("crates: no function that C can call".to_string());
        }
        for name in &self.listed {
            if !self.found.iter().any(|function| function.name == *name) {
                missing.push(format!("crates: no public function {name}"));
            }
        }
        missing
    }

    /// The words of the contracts: the definitions of ours that the entries ensure something by.
    pub fn words(&self, sources: &[Source]) -> BTreeSet<Name> {
        self.all()
            .flat_map(|entry| entry.ensured(sources))
            .collect()
    }

    fn all(&self) -> impl Iterator<Item = &'a Function<'a>> + '_ {
        self.found.iter().chain(&self.foreign).copied()
    }
}

/// The functions in the first cells of the table, if a document has it.
fn listed(document: &str) -> impl Iterator<Item = &str> {
    let lines = document.lines().skip_while(|line| *line != HEADING);
    let rows = lines.skip(2).take_while(|line| line.starts_with('|'));
    let cells = rows.filter_map(|row| row.split('|').nth(1));
    cells.flat_map(|cell| cell.split('`').skip(1).step_by(2))
}
