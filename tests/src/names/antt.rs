//! The lines of antt: what `use` lines take, those of Rattle code too, and what is defined.

use super::sources::code;

/// What marks a declaration, in front of its name.
const MARKS: [&str; 3] = ["pub", "abbrev", "unfoldable"];

/// What a `use` line takes from a module: a name, or the module whole.
pub struct Taken<'a> {
    pub module: String,
    pub name: Option<&'a str>,
    /// What the file calls it.
    pub known: &'a str,
}

/// A definition, and the lines of its code.
pub struct Definition<'a> {
    pub name: &'a str,
    pub lines: Vec<&'a str>,
}

/// Whether a line is a `use` line for its file alone.
pub fn is_use(line: &str) -> bool {
    line.starts_with("use ") || line.starts_with("ghost use ")
}

/// Whether a line is a `use` line that passes on what it takes.
pub fn passes_on(line: &str) -> bool {
    line.starts_with("pub use ") || line.starts_with("unfoldable pub use ")
}

/// What a file takes.
pub fn all_taken(text: &str) -> impl Iterator<Item = Taken<'_>> {
    let lines = text.lines().filter(|line| is_use(line) || passes_on(line));
    lines.flat_map(taken)
}

/// What a file passes on.
pub fn passed_on(text: &str) -> impl Iterator<Item = Taken<'_>> {
    let lines = text.lines().filter(|line| passes_on(line));
    lines.flat_map(taken)
}

/// What a `use` line takes: the names in braces, or a module.
pub fn taken(line: &str) -> Vec<Taken<'_>> {
    let line = code(line).trim_end().trim_end_matches(';');
    let (_, path) = line.split_once("use ").unwrap_or_default();
    let listed = path.split_once(".{").or_else(|| path.split_once("::{"));
    let Some((module, list)) = listed else {
        let (module, known) = renamed(path);
        return vec![Taken {
            module: module.to_string(),
            name: None,
            known: last_part(known),
        }];
    };
    let items = list.trim_end_matches('}').split(',').map(str::trim);
    let items = items.filter(|item| !item.is_empty());
    items.map(|item| item_of(module, item)).collect()
}

/// An item in the braces of a `use` line, whose path may go on there.
fn item_of<'a>(module: &str, item: &'a str) -> Taken<'a> {
    let (item, known) = renamed(item);
    let (module, name) = match item.rsplit_once('.') {
        Some((below, name)) => (format!("{module}.{below}"), name),
        None => (module.to_string(), item),
    };
    Taken {
        module,
        name: Some(name),
        known: last_part(known),
    }
}

/// A path, and what it goes by.
fn renamed(path: &str) -> (&str, &str) {
    path.split_once(" as ").unwrap_or((path, path))
}

/// A module that is named whole, as in `use numbers::power;`, goes by its last part.
fn last_part(path: &str) -> &str {
    path.rsplit([' ', ':', '.']).next().unwrap_or(path)
}

/// The definitions of a file: records, data, and all that is declared by its type. Their lines are
/// those below that are indented, and those that begin with the name again.
pub fn definitions(text: &str) -> Vec<Definition<'_>> {
    let mut definitions: Vec<Definition> = Vec::new();
    let mut open = None;
    for line in text.lines().filter(|line| !code(line).trim().is_empty()) {
        let (indentation, first) = head(line);
        let within = |&(above, name): &(usize, &str)| {
            above < indentation || above == indentation && first == name
        };
        if !open.as_ref().is_some_and(within) {
            open = defined(line).map(|name| (indentation, name));
            definitions.extend(open.map(|(_, name)| Definition {
                name,
                lines: Vec::new(),
            }));
        }
        if let (Some(_), Some(definition)) = (open, definitions.last_mut()) {
            definition.lines.push(line);
        }
    }
    definitions
}

/// The name that a line begins to define.
fn defined(line: &str) -> Option<&str> {
    let mut words = unmarked(line);
    match (words.next()?, words.next()?) {
        ("record" | "data", name) | (name, ":") => Some(name),
        _ => None,
    }
}

/// A line's indentation, and its first word but for those that mark a declaration.
pub fn head(line: &str) -> (usize, &str) {
    let indentation = line.len() - line.trim_start().len();
    (indentation, unmarked(line).next().unwrap_or_default())
}

/// Whether a line declares a name of antt that is no operator's, as in `pub name : type`.
pub fn declares(line: &str) -> bool {
    let plain = |c: char| c.is_alphanumeric() || "-_'".contains(c);
    let mut words = unmarked(line);
    words.next().is_some_and(|name| name.chars().all(plain)) && words.next() == Some(":")
}

/// Whether a line declares an answer or an invariant that the prover asks for, as in
/// `pub returns : goal.returns`, or the whole proof of a function, `pub name-spec : .. statement M`.
pub fn answers(line: &str) -> bool {
    let kind = code(line).split_once(" : ").map_or("", |(_, kind)| kind);
    kind.starts_with("goal.") || kind.ends_with("statement M")
}

/// The words of a line's code but for those that mark a declaration.
fn unmarked(line: &str) -> impl Iterator<Item = &str> {
    let words = code(line).split_whitespace();
    words.skip_while(|word| MARKS.contains(word))
}
