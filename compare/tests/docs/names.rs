//! Which code spans are names, and whether there is what they name.

use std::sync::OnceLock;

use compare::samples::{FONT, LOGO, PICTURE, SETTINGS, TITLE};

use crate::declared::{all_declared, is_name, Declared};
use crate::pages::{root, Span};
use crate::tree::{ends_in, paths_under, text};

/// Words that name nothing of the repository.
#[rustfmt::skip]
pub const ALLOWED: [&str; 24] = [
    // words of Rattle, and of the proofs that it asks for
    "ensures", "omega", "requires", "result", "rw", "use", "usize",
    // commands and programs that others made
    "disktype", "grub-fstest", "readdisk", "unadf", "xdms",
    // functions of ADFlib and of GRUB
    "adfCreateFlop", "adfDevType", "adfEntBlock2Entry", "adfFreeFileBlocks", "adfInstallBootBlock",
    "adfReadNextFileBlock", "adfRemoveEntry", "adfSetBlockFree", "grub_affs_iterate_dir", "grub_affs_mount",
    "grub_strcasecmp",
    // a file that there may not be, as docs/PROVING.md says
    "Marks.antt",
];

/// Words that stand for any name, alone or as a part of a path.
const PLACEHOLDERS: [&str; 5] = ["CRATE", "LAW", "NAME", "function", "module"];

/// Endings of the names of files.
const ENDINGS: [&str; 13] = ["a", "adf", "antt", "c", "csv", "edit", "h", "md", "rs", "rt", "svg", "toml", "txt"];

/// What a span may be, by its form.
pub enum Form<'a> {
    /// No name: a number, a sign, a variable, an option, a command with its words.
    Other,
    /// A file, a folder, or a wrong program as `crate/edit`.
    Path(&'a str),
    /// `Module.name`, `Module.*` and `Type.field`.
    Member(&'a str, &'a str),
    /// `crate::module::function`, or the end of such a path.
    Item(Vec<&'a str>),
    /// `_2`: the name before it, with this for its last part.
    Ending(&'a str),
    /// One name.
    Word(&'a str),
}

/// How a name is found.
#[derive(Clone, Copy, Debug, PartialEq)]
pub enum Kind {
    File,
    Edit,
    Crate,
    Module,
    Member,
    Item,
    Word,
}

pub const KINDS: [Kind; 7] =
    [Kind::File, Kind::Edit, Kind::Crate, Kind::Module, Kind::Member, Kind::Item, Kind::Word];

/// What comes of looking a span up.
#[derive(Clone, Copy, Debug, PartialEq)]
pub enum Found {
    /// It is no name.
    Nothing,
    As(Kind),
    Missing,
}

/// A word that may be one of plain English: small letters alone.
fn is_plain(word: &str) -> bool {
    word.bytes().all(|byte| byte.is_ascii_lowercase())
}

fn is_path(text: &str) -> bool {
    let fits = text.chars().all(|c| c.is_ascii_alphanumeric() || "._-/*".contains(c));
    let ends = || text.rsplit_once('.').is_some_and(|(_, ending)| ENDINGS.contains(&ending));
    fits && text.contains(|c: char| c.is_ascii_alphabetic()) && (text.contains('/') || ends())
}

/// An underscore and a number.
fn is_ending(text: &str) -> bool {
    text.strip_prefix('_').is_some_and(|end| !end.is_empty() && end.bytes().all(|byte| byte.is_ascii_digit()))
}

/// The form of a span. Of a call or an expression that is the form of its first word, where that is no plain one.
pub fn form(text: &str) -> Form<'_> {
    let first = text.split([' ', '(']).next().unwrap_or_default();
    let alone = first.len() == text.len();
    let items: Vec<_> = first.split("::").collect();
    match first.split_once('.') {
        _ if is_ending(first) => Form::Ending(first),
        _ if first.starts_with('-') => Form::Other,
        _ if is_path(first) => Form::Path(first.trim_start_matches("./")),
        Some((of, name)) if of.starts_with(|c: char| c.is_ascii_uppercase()) && (is_name(name) || name == "*") => {
            Form::Member(of, name)
        }
        _ if items.len() > 1 && items.iter().all(|item| is_name(item)) => Form::Item(items),
        _ if first.len() > 1 && is_name(first) && (alone || !is_plain(first)) => Form::Word(first),
        _ => Form::Other,
    }
}

fn is_allowed(text: &str) -> bool {
    // the last three are paths on the volume of samples/
    ALLOWED.contains(&text) || [TITLE, SETTINGS, FONT, LOGO, PICTURE].contains(&text)
}

/// The code span that follows directly as `of` or `in`: the crate or the file that a name is said to be of.
fn said_to_be_of(after: &str) -> Option<&str> {
    let of = after.strip_prefix(" of `").or(after.strip_prefix(" in `"))?;
    of.split('`').next()
}

/// The module of a theorem in a list that begins with `Module.name`, by what stands before it.
fn module_of_list(before: &str) -> Option<&str> {
    let mut parts: Vec<_> = before.split('`').collect();
    while parts.pop().is_some_and(|between| [", ", " and ", ", and ", " to "].contains(&between)) {
        match form(parts.pop()?) {
            Form::Member(of, _) => return Some(of),
            Form::Word(_) | Form::Ending(_) => {}
            _ => return None,
        }
    }
    None
}

/// What there is to be named.
pub struct Library {
    pub paths: Vec<String>,
    pub crates: Vec<String>,
    /// Crates of the kit.
    kit: Vec<String>,
    declared: Vec<Declared>,
}

/// What there is in this repository.
pub fn library() -> &'static Library {
    static LIBRARY: OnceLock<Library> = OnceLock::new();
    LIBRARY.get_or_init(Library::new)
}

impl Library {
    fn new() -> Library {
        let paths = paths_under(&root());
        let list = text(&root().join("crates.txt"));
        let lines = list.lines().filter(|line| !line.starts_with('#'));
        let (heads, below): (Vec<_>, Vec<_>) = lines.filter_map(|line| line.split_once(':')).unzip();
        // a head may say after the name that the crate is a static library
        let crates: Vec<_> = heads.iter().filter_map(|head| head.split_whitespace().next()).collect();
        let kit = below.iter().flat_map(|names| names.split_whitespace()).filter(|name| !crates.contains(name));
        // `std` is never listed
        let kit = kit.chain(["std"]).map(String::from).collect();
        let declared = all_declared(&paths);
        Library { crates: crates.into_iter().map(String::from).collect(), kit, declared, paths }
    }

    pub fn is_crate(&self, name: &str) -> bool {
        self.crates.iter().any(|one| one == name)
    }

    fn has(&self, path: &str) -> bool {
        self.paths.iter().any(|one| one == path)
    }

    /// The files of which this may be the path: from the top, from crates/, or the end of a path, in this crate if
    /// there is one.
    fn files(&self, path: &str, within: Option<&str>) -> Vec<&str> {
        let parts: Vec<_> = path.split('/').filter(|part| !part.is_empty()).map(as_pattern).collect();
        let parts: Vec<_> = parts.iter().map(|part| &part[..]).collect();
        let fits = |file: &&str| {
            let above = file.split('/').count().saturating_sub(parts.len());
            let from_crates = above == 1 && file.starts_with("crates/");
            ends_in(file, &parts) && (above == 0 || from_crates || is_near(file, within))
        };
        self.paths.iter().map(|file| &file[..]).filter(fits).collect()
    }

    /// The declarations of this crate, if there is one, or of all.
    fn near<'a>(&'a self, within: Option<&'a str>) -> impl Iterator<Item = &'a Declared> {
        self.declared.iter().filter(move |one| is_near(&one.file, within))
    }

    fn is_edit(&self, of: &str, name: &str) -> bool {
        let gate = format!("crates/{of}/must-fail/{name}.edit");
        self.has(&gate) || self.has(&format!("wrong-programs/{of}/{name}.edit"))
    }

    fn path(&self, path: &str, within: Option<&str>) -> Option<Kind> {
        if path.split_once('/').is_some_and(|(of, name)| self.is_edit(of, name)) {
            return Some(Kind::Edit);
        }
        (!self.files(path, within).is_empty()).then_some(Kind::File)
    }

    /// A declaration in the files of this name, of this crate if there is one; or a part of a type.
    fn member(&self, of: &str, name: &str, within: Option<&str>) -> Option<Kind> {
        let mut here = self.near(within).filter(|one| one.is_of_module(of));
        if name == "*" {
            return here.next().map(|_| Kind::Module);
        }
        let part = |one: &Declared| one.owner.as_deref() == Some(of) && one.name == name;
        (here.any(|one| one.name == name) || self.declared.iter().any(part)).then_some(Kind::Member)
    }

    /// The path of a declaration or of a module; or the end of one, of this crate if there is one.
    fn item(&self, parts: &[&str], within: Option<&str>) -> Option<Kind> {
        let whole = |one: &Declared| one.path().is_some_and(|path| path == parts);
        let end = |one: &Declared| one.path().is_some_and(|path| path.ends_with(parts));
        (self.declared.iter().any(whole) || self.near(within).any(end)).then_some(Kind::Item)
    }

    /// A module by its name alone, of this crate if there is one.
    fn is_module(&self, name: &str, within: Option<&str>) -> bool {
        let of = within.unwrap_or("*");
        let files = [format!("specs/{name}.antt"), format!("proofs/{name}.antt"), format!("src/{name}.rt")];
        files.iter().any(|file| !self.files(&format!("crates/{of}/{file}"), None).is_empty())
    }

    /// A declaration, a module or a wrong program, of this crate if there is one.
    fn word(&self, name: &str, within: Option<&str>) -> Option<Kind> {
        if self.near(within).any(|one| one.public && one.name == name) {
            return Some(Kind::Word);
        }
        if self.is_module(name, within) {
            return Some(Kind::Module);
        }
        let mut crates = self.crates.iter().filter(|of| within.unwrap_or(of) == &of[..]);
        crates.any(|of| self.is_edit(of, name)).then_some(Kind::Edit)
    }

    /// A name that is said to be of a file.
    fn word_of_file(&self, name: &str, file: &str, within: Option<&str>) -> Option<Kind> {
        let files = self.files(file, within);
        let here = |one: &Declared| one.name == name && files.contains(&&one.file[..]);
        self.declared.iter().any(here).then_some(Kind::Word)
    }

    /// Whether a theorem is in one of these modules of one of these crates.
    pub fn stands_in(&self, theorem: &str, crates: &[String], modules: &[String]) -> bool {
        let here = |one: &Declared| modules.iter().any(|name| one.is_of_module(name)) && one.public;
        crates.iter().any(|of| self.near(Some(of)).any(|one| here(one) && one.name == theorem))
    }

    /// Whether this is the name of nothing in code or in a definition: then it is to be that of a theorem.
    pub fn is_theorem(&self, name: &str) -> bool {
        !self.declared.iter().any(|one| one.name == name && !one.file.contains("/proofs/"))
    }

    /// Whether a theorem has this name, whatever else has it.
    pub fn is_proved(&self, name: &str) -> bool {
        self.declared.iter().any(|one| one.name == name && one.public && one.file.contains("/proofs/"))
    }

    /// A single name: of the crate or the file that the page says, else anything that has a name; a wrong program
    /// has to be one of the section's crate.
    fn lone(&self, name: &str, span: &Span) -> Option<Kind> {
        let section = span.section.as_deref();
        match said_to_be_of(&span.after) {
            Some(of) if self.is_crate(of) => return self.word(name, Some(of)),
            Some(of) if of.ends_with(".antt") || of.ends_with(".rt") => {
                return self.word_of_file(name, of, section)
            }
            _ => {}
        }
        let beside = span.page.rsplit_once('/').is_some_and(|(folder, _)| self.has(&format!("{folder}/{name}")));
        match self.word(name, None) {
            _ if self.is_crate(name) => Some(Kind::Crate),
            _ if beside => Some(Kind::File),
            Some(Kind::Edit) => self.word(name, section),
            found => found,
        }
    }

    fn formed(&self, span: &Span) -> Option<Kind> {
        let of = said_to_be_of(&span.after).filter(|of| self.is_crate(of));
        let within = of.or(span.section.as_deref());
        match form(&span.text) {
            Form::Path(path) => self.path(path, within),
            Form::Member(of, name) => self.member(of, name, within),
            Form::Item(parts) => self.item(&parts, within),
            Form::Ending(ending) => self.word(&with_ending(&span.before, ending)?, within),
            Form::Word(name) => match module_of_list(&span.before).filter(|_| name.contains('_')) {
                Some(of) if self.is_theorem(name) => self.member(of, name, within),
                Some(of) => self.member(of, name, within).or_else(|| self.lone(name, span)),
                None => self.lone(name, span),
            },
            Form::Other => None,
        }
    }

    /// Whether this is the form of no name, or of one that is not of this repository.
    fn is_no_name(&self, form: &Form) -> bool {
        match form {
            Form::Other => true,
            Form::Path(path) => path.starts_with("target/"),
            Form::Item(parts) => self.kit.iter().any(|name| name == parts[0]) || parts.iter().all(stands_for_any),
            Form::Word(word) => stands_for_any(word),
            Form::Member(..) | Form::Ending(_) => false,
        }
    }

    /// What it is that a span names.
    pub fn find(&self, span: &Span) -> Found {
        if span.must_be_crate {
            return if self.is_crate(&span.text) { Found::As(Kind::Crate) } else { Found::Missing };
        }
        if self.is_no_name(&form(&span.text)) {
            return Found::Nothing;
        }
        match self.formed(span) {
            Some(kind) => Found::As(kind),
            None if is_allowed(&span.text) => Found::Nothing,
            None => Found::Missing,
        }
    }
}

/// Whether a file is of this crate; all are if there is none.
fn is_near(file: &str, within: Option<&str>) -> bool {
    within.is_none() || file.strip_prefix("crates/").and_then(|file| file.split('/').next()) == within
}

fn stands_for_any(word: &&str) -> bool {
    PLACEHOLDERS.contains(word)
}

/// A part of a path, with `*` for a word that stands for any name.
fn as_pattern(part: &str) -> String {
    let (stem, ending) = part.split_at(part.find('.').unwrap_or(part.len()));
    format!("{}{ending}", if stands_for_any(&stem) { "*" } else { stem })
}

/// The name at the end of what stands before, with another last part.
fn with_ending(before: &str, ending: &str) -> Option<String> {
    let names = before.split('`').skip(1).step_by(2);
    let name = names.filter(|name| name.contains('_') && !name.starts_with('_')).last()?;
    let (start, _) = name.rsplit_once('_')?;
    let start = start.rsplit_once('.').map_or(start, |(_, name)| name);
    Some(format!("{start}{ending}"))
}
