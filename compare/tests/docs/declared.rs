//! What the crates declare, by name. Their texts are read line by line: in the layout of `rt fmt` a declaration
//! begins its line.

use crate::pages::root;
use crate::tree::text;

/// A declaration.
pub struct Declared {
    /// The file it stands in, from the top of the repository.
    pub file: String,
    /// The type or the record that it is a part of.
    pub owner: Option<String>,
    pub name: String,
    /// It is not a lemma that only its own file can cite.
    pub public: bool,
}

impl Declared {
    /// It stands in a file of specs/ or proofs/ that has this name.
    pub fn is_of_module(&self, name: &str) -> bool {
        self.file.rsplit('/').next().and_then(|file| file.strip_suffix(".antt")) == Some(name)
    }

    /// As code of another crate names it: crate, module, type and name. None if it is no code.
    pub fn path(&self) -> Option<Vec<&str>> {
        let (name, module) = self.file.strip_suffix(".rt")?.strip_prefix("crates/")?.split_once("/src/")?;
        let module = module.split('/').filter(|part| !["lib", "main"].contains(part));
        Some([name].into_iter().chain(module).chain(self.owner.as_deref()).chain([&self.name[..]]).collect())
    }
}

/// Whether this can be a name: letters, digits and underscores, and a letter first.
pub fn is_name(word: &str) -> bool {
    let inner = |c: char| c.is_ascii_alphanumeric() || c == '_';
    word.starts_with(|c: char| c.is_ascii_alphabetic()) && word.chars().all(inner)
}

/// The name with which this text begins.
fn leading(text: &str) -> Option<&str> {
    let end = text.find(|c: char| !c.is_ascii_alphanumeric() && c != '_').unwrap_or(text.len());
    Some(&text[..end]).filter(|name| is_name(name))
}

/// The text after one of these words.
fn after_one<'a>(text: &'a str, words: &[&str]) -> Option<&'a str> {
    words.iter().find_map(|word| text.strip_prefix(word)?.strip_prefix(' '))
}

/// The text after as many of these words as it begins with.
fn after_all<'a>(mut text: &'a str, words: &[&str]) -> &'a str {
    while let Some(rest) = after_one(text, words) {
        text = rest;
    }
    text
}

/// What a line declares.
struct Line<'a> {
    names: Vec<&'a str>,
    public: bool,
    /// What follows further in is part of it.
    opens: bool,
}

impl<'a> Line<'a> {
    fn one(name: Option<&'a str>, public: bool, opens: bool) -> Line<'a> {
        Line { names: name.into_iter().collect(), public, opens }
    }
}

/// A line of specs/ or proofs/. The lines of a type are its fields or its constructors.
fn line_of_specs(line: &str, in_type: bool) -> Line<'_> {
    let rest = after_all(line, &["pub", "abbrev", "unfoldable"]);
    if let Some(of) = after_one(rest, &["record", "data", "module"]) {
        return Line::one(leading(of), true, true);
    }
    // what a module hands on from another is its own too
    if let Some((_, handed)) = line.strip_prefix("pub use ").and_then(|of| of.split_once(".{")) {
        let names = handed.trim_end_matches('}').split(", ").filter(|name| is_name(name)).collect();
        return Line { names, public: true, opens: false };
    }
    let public = in_type || line.split(' ').take(2).any(|word| word == "pub");
    let name = rest.split_once(" :").map(|(name, _)| name.trim_start_matches('«').trim_end_matches('»'));
    Line::one(name.filter(|name| is_name(name)), public, false)
}

/// A line of src/. The lines of a type are its fields or its variants.
fn line_of_code(line: &str, in_type: bool) -> Line<'_> {
    let rest = after_all(line, &["pub", "pub(crate)", "extern \"C\""]);
    if let Some(of) = after_one(rest, &["struct", "enum", "impl"]) {
        return Line::one(leading(of), true, line.ends_with('{'));
    }
    if let Some(of) = after_one(rest, &["fn", "const", "mod"]) {
        return Line::one(leading(of), true, false);
    }
    let part = leading(rest).filter(|name| in_type && rest[name.len()..].starts_with([':', ',', '(', ' ']));
    Line::one(part, true, false)
}

/// The types that a line stands in, each with the column at which it begins; a block that is no type has no name.
#[derive(Default)]
struct Within(Vec<(usize, String)>);

impl Within {
    /// The innermost, for a line at this column.
    fn at(&mut self, column: usize) -> Option<String> {
        self.0.retain(|(outer, _)| *outer < column);
        self.0.last().map(|(_, name)| name.clone()).filter(|name| !name.is_empty())
    }

    fn open(&mut self, column: usize, name: Option<&&str>) {
        self.0.push((column, name.map(|name| name.to_string()).unwrap_or_default()));
    }
}

/// The declarations of a file.
pub fn declared_in(file: &str, text: &str) -> Vec<Declared> {
    let mut found = Vec::new();
    let mut within = Within::default();
    for line in text.lines() {
        let words = line.trim_start();
        if words.is_empty() || words.starts_with("--") || words.starts_with("//") {
            continue;
        }
        let column = line.len() - words.len();
        let owner = within.at(column);
        let line = match file.ends_with(".rt") {
            true => line_of_code(words, column == 4 && owner.is_some()),
            false => line_of_specs(words, owner.is_some()),
        };
        if line.opens {
            within.open(column, line.names.first());
        }
        let (file, public) = (file.to_string(), line.public);
        let declared =
            |name: &str| Declared { file: file.clone(), owner: owner.clone(), name: name.to_string(), public };
        found.extend(line.names.into_iter().map(declared));
    }
    found
}

/// All declarations of these files.
pub fn all_declared(paths: &[String]) -> Vec<Declared> {
    let code = |path: &&String| path.starts_with("crates/") && (path.ends_with(".antt") || path.ends_with(".rt"));
    paths.iter().filter(code).flat_map(|path| declared_in(path, &text(&root().join(path)))).collect()
}

#[cfg(test)]
mod tests {
    use super::*;

    /// The names that pages may use without a file, each after the type that it is of.
    fn names(file: &str, text: &str) -> Vec<String> {
        let shown = |one: Declared| one.owner.map(|owner| owner + ".").unwrap_or_default() + &one.name;
        declared_in(file, text).into_iter().filter(|one| one.public).map(shown).collect()
    }

    const SPECS: &str = "
-- no : name
lemma : A
abbrev pub f : A
f x = y
module _ (x : A) where
  pub a_b : B
  pub record R : Type 0 where
    pub part : C

    pub «in_it» : C
  pub g : D
data T where
  one : T
pub use M.N.{Placed, ◌&◌}
pub h : E
";

    const CODE: &str = "
pub mod m;
// fn no
pub struct D;
impl D {
    pub const N: u32 = 1;

    pub(crate) fn f(self) -> u32
    {
        self.x
    }
}
pub enum E {
    Good,
    Bad(u32),
}
struct S {
    pub part: u32,
}
fn g(
    file: u8,
) -> u32
";

    #[test]
    fn what_specs_declare() {
        assert_eq!(
            names("M.antt", SPECS),
            ["f", "a_b", "R", "R.part", "R.in_it", "g", "T", "T.one", "Placed", "h"]
        );
        let private: Vec<_> = declared_in("M.antt", SPECS).into_iter().filter(|one| !one.public).collect();
        assert_eq!(private.iter().map(|one| &one.name[..]).collect::<Vec<_>>(), ["lemma"]);
    }

    #[test]
    fn what_code_declares() {
        assert_eq!(names("m.rt", CODE), ["m", "D", "D", "D.N", "D.f", "E", "E.Good", "E.Bad", "S", "S.part", "g"]);
    }

    #[test]
    fn paths_of_code() {
        let path = |file: &str, owner: Option<&str>| {
            let (file, owner) = (file.to_string(), owner.map(String::from));
            Declared { file, owner, name: "f".to_string(), public: true }.path().map(|path| path.join("::"))
        };
        assert_eq!(path("crates/volume/src/block.rt", Some("Block")).as_deref(), Some("volume::block::Block::f"));
        assert_eq!(path("crates/words/src/lib.rt", None).as_deref(), Some("words::f"));
        assert_eq!(path("crates/words/specs/Word.antt", None), None);
    }
}
