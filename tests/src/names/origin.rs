//! Where names come from: the kit, or the files of the crates.

use std::collections::{BTreeSet, HashSet};

use super::antt::{all_taken, passed_on, Taken};
use super::sources::{code, find, is_used, parts, Source};

/// What the modules of the kit's libraries begin with.
const KIT: [&str; 7] = [
    "mathlib.",
    "Prim.",
    "native.",
    "lib.",
    "borrow.",
    "Rattle.core.",
    "Rattle.std.",
];

/// What the modules of the crates begin with.
pub const OURS: &str = "Rattle.";

/// A name of a crate, by the file of its module.
#[derive(Clone, PartialEq, Eq, PartialOrd, Ord)]
pub struct Name {
    pub file: String,
    pub name: String,
}

pub enum Origin {
    Kit,
    Ours(Name),
    /// A module taken whole, or one that is neither the kit's nor a crate's.
    Other,
}

/// Where a name comes from, through the files that pass it on.
pub fn origin(sources: &[Source], taken: &Taken) -> Origin {
    if KIT.iter().any(|library| taken.module.starts_with(library)) {
        return Origin::Kit;
    }
    let (Some(file), Some(name)) = (file_of(&taken.module), taken.name) else {
        return Origin::Other;
    };
    let text = find(sources, &file).map_or("", |source| &source.text);
    match passed_on(text).find(|passed| passed.known == name) {
        Some(passed) => origin(sources, &passed),
        None => Origin::Ours(Name {
            name: name.to_string(),
            file,
        }),
    }
}

/// The file of a crate's module: crates/sale/specs/Answers.antt is `Rattle.sale.specs.Answers`.
fn file_of(module: &str) -> Option<String> {
    let (name, path) = module.strip_prefix(OURS)?.split_once('.')?;
    Some(format!("crates/{name}/{}.antt", path.replace('.', "/")))
}

/// The names of the crates that a file takes and that are among the words.
pub fn named(sources: &[Source], text: &str, words: &HashSet<&str>) -> BTreeSet<Name> {
    all_taken(text)
        .filter(|taken| is_used(taken.known, words))
        .filter_map(|taken| match origin(sources, &taken) {
            Origin::Ours(name) => Some(name),
            _ => None,
        })
        .collect()
}

impl Name {
    /// The struct or enum of Rattle code whose declaration gives the name, as `Sale` in
    /// `Rattle.sale.specs.declared.Sale` and the variants of `Field` in
    /// `Rattle.fields.specs.declared.Field.TheVariants`.
    pub fn declared(&self, sources: &[Source]) -> Option<&str> {
        let (folder, path) = self.file.split_once("/specs/declared/")?;
        let name = path.split(['/', '.']).next()?;
        let source = format!("{folder}/src/");
        let declares = |line: &str| {
            let words: Vec<&str> = parts(code(line)).collect();
            words
                .windows(2)
                .any(|pair| ["struct", "enum"].contains(&pair[0]) && pair[1] == name)
        };
        sources
            .iter()
            .filter(|file| file.path.starts_with(&source))
            .any(|file| file.text.lines().any(declares))
            .then_some(name)
    }
}
