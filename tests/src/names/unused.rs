//! What is named and not used: names of `use` lines that are used nowhere else in their file, laws
//! and definitions that are used nowhere, and crates of crates.txt that the crate does not use.

use std::collections::{HashMap, HashSet};

use super::antt::{answers, declares, head, is_use, taken};
use super::sources::{code, is_used, parts, words, Source};

/// What is not used, a line for each.
pub fn check(crates: &str, sources: &[Source]) -> Vec<String> {
    let mut unused = unused_crates(crates, sources);
    unused.extend(unused_laws(sources));
    for source in sources {
        let names = unused_names(&source.text);
        unused.extend(names.map(|name| format!("{}: {name}", source.path)));
    }
    unused
}

/// The crates of crates.txt that a crate may use and does not name.
fn unused_crates(crates: &str, sources: &[Source]) -> Vec<String> {
    let lines = crates.lines().filter(|line| !line.starts_with('#'));
    let uses = lines.filter_map(|line| line.split_once(':'));
    let mut unused = Vec::new();
    for (name, others) in uses {
        let name = name.split_whitespace().next().unwrap_or_default();
        let folder = format!("crates/{name}/");
        let own = || {
            sources
                .iter()
                .filter(|source| source.path.starts_with(&folder))
        };
        for other in others.split_whitespace() {
            let in_proofs = format!("Rattle.{other}.");
            let in_code = format!("{other}::");
            if !own().any(|s| s.text.contains(&in_proofs) || s.text.contains(&in_code)) {
                unused.push(format!("crates.txt: {name} does not use {other}"));
            }
        }
    }
    unused
}

/// The names that a file of laws or definitions declares and that stand nowhere but at the head of
/// their own lines. Answers to what the prover asks of a function, and worked examples, are used by
/// nobody.
fn unused_laws(sources: &[Source]) -> Vec<String> {
    let mut counts: HashMap<&str, usize> = HashMap::new();
    for line in sources.iter().flat_map(|source| source.text.lines()) {
        if !is_use(line) {
            for word in parts(code(line)) {
                *counts.entry(word).or_default() += 1;
            }
        }
    }
    let mut unused = Vec::new();
    for source in sources {
        if source.path.ends_with("/Example.antt") {
            continue;
        }
        let mut heads: HashMap<(usize, &str), usize> = HashMap::new();
        for line in source.text.lines() {
            *heads.entry(head(line)).or_default() += 1;
        }
        let declared = source.text.lines().filter(|line| declares(line));
        let laws = declared.filter(|line| !answers(line)).map(head);
        unused.extend(
            laws.filter(|head| {
                counts
                    .get(head.1)
                    .is_some_and(|count| *count == heads[head])
            })
            .map(|(_, name)| format!("{}: {name} is used nowhere", source.path)),
        );
    }
    unused
}

/// The names that a file's `use` lines bring and no other line has. A `pub use` passes names on.
fn unused_names(text: &str) -> impl Iterator<Item = &str> {
    let (brought, body): (Vec<&str>, Vec<&str>) = text.lines().partition(|line| is_use(line));
    let words: HashSet<&str> = body.iter().flat_map(|line| words(line)).collect();
    let names = brought.into_iter().flat_map(taken);
    names
        .map(|taken| taken.known)
        .filter(move |name| !is_used(name, &words))
}
