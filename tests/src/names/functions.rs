//! The functions of Rattle code, with their contracts.

use std::collections::BTreeSet;
use std::fmt::{self, Display, Formatter};

use super::origin::{named, Name};
use super::sources::{code, parts, Source};

pub struct Function<'a> {
    source: &'a Source,
    /// What stands before `fn`.
    marks: &'a str,
    pub name: &'a str,
    /// The code from its first line to the next function.
    code: String,
}

/// The functions of all crates.
pub fn functions(sources: &[Source]) -> Vec<Function<'_>> {
    let code = sources.iter().filter(|source| source.path.ends_with(".rt"));
    code.flat_map(functions_of).collect()
}

fn functions_of(source: &Source) -> Vec<Function<'_>> {
    let mut functions: Vec<Function> = Vec::new();
    for line in source.text.lines().map(code) {
        functions.extend(begun(line).map(|(marks, name)| Function {
            source,
            marks,
            name,
            code: String::new(),
        }));
        if let Some(function) = functions.last_mut() {
            function.code += line;
            function.code += "\n";
        }
    }
    functions
}

/// The marks and the name of the function that begins in a line, as in `pub extern "C" fn name(`.
fn begun(line: &str) -> Option<(&str, &str)> {
    let (marks, rest) = line.split_once("fn ")?;
    let is_mark = |c: char| c.is_alphabetic() || " \"()".contains(c);
    let name = rest.split(['(', '<']).next()?;
    let whole = marks.is_empty() || marks.ends_with(' ');
    (whole && marks.chars().all(is_mark)).then_some((marks, name))
}

impl Function<'_> {
    /// Whether a word is among its marks.
    pub fn is(&self, mark: &str) -> bool {
        self.marks.split_whitespace().any(|word| word == mark)
    }

    /// Whether it requires anything of its caller.
    pub fn asks(&self) -> bool {
        !self.clauses("requires").is_empty()
    }

    /// Whether the contract of another one is the same.
    pub fn promises_as(&self, other: &Function) -> bool {
        let same = |kind| self.clauses(kind) == other.clauses(kind);
        same("requires") && same("ensures")
    }

    /// What its clauses of a kind have in their braces. A clause may have a name, and a star for one
    /// of memory.
    fn clauses(&self, kind: &str) -> Vec<&str> {
        let texts = self.code.split(kind).skip(1);
        texts.filter_map(in_braces).map(str::trim).collect()
    }

    /// The definitions of ours that its `ensures` clauses name.
    pub fn ensured(&self, sources: &[Source]) -> BTreeSet<Name> {
        let words = self.clauses("ensures").into_iter().flat_map(parts);
        let mut names = named(sources, &self.source.text, &words.collect());
        names.retain(|name| name.declared(sources).is_none());
        names
    }
}

impl Display for Function<'_> {
    fn fmt(&self, f: &mut Formatter) -> fmt::Result {
        write!(f, "{}: {}", self.source.path, self.name)
    }
}

/// What stands in the first braces of a text, after a star and a word at most.
fn in_braces(text: &str) -> Option<&str> {
    let (name, inside) = text.split_once('{')?;
    if name.trim_start_matches('*').split_whitespace().count() > 1 {
        return None;
    }
    let mut depth = 1;
    for (at, c) in inside.char_indices() {
        match c {
            '{' => depth += 1,
            '}' => depth -= 1,
            _ => {}
        }
        if depth == 0 {
            return Some(&inside[..at]);
        }
    }
    None
}
