//! Holds the pages to what there is: the theorems, definitions, functions, crates, wrong programs and files that
//! they name, and the wrong programs that they have to name.
//!
//! - [`pages`] finds the code spans of the pages;
//! - [`declared`] reads the names that the crates declare, and [`tree`] the files that there are;
//! - [`names`] decides which span is a name, and looks it up.

mod declared;
mod names;
mod pages;
mod tree;

use std::collections::{BTreeMap, BTreeSet};

use names::{library, Found, Kind, ALLOWED, KINDS};
use pages::{all_spans, root, rows, spans_of, Row, Span};
use tree::{names_in, text};

const CONTRACTS: &str = "docs/CONTRACTS.md";
const WRONG_PROGRAMS: &str = "docs/WRONG-PROGRAMS.md";

/// Fewer names than this, over all pages and of each kind, would say that the pages were not read.
const LEAST: usize = 400;
const LEAST_OF_A_KIND: usize = 5;

fn page(name: &str) -> String {
    text(&root().join(name))
}

fn shown(span: &Span) -> String {
    format!("{}:{}: `{}`", span.page, span.line, span.text)
}

/// Fails with all of these lines, if there are any.
fn hold_none(what: &str, lines: &[String]) {
    assert!(lines.is_empty(), "{} {what}:\n{}", lines.len(), lines.join("\n"));
}

#[test]
fn what_the_pages_name_exists() {
    let spans = all_spans();
    let found: Vec<_> = spans.iter().map(|span| library().find(span)).collect();
    let missing = spans.iter().zip(&found).filter(|(_, found)| **found == Found::Missing);
    hold_none("names are of nothing that there is", &missing.map(|(span, _)| shown(span)).collect::<Vec<_>>());
    let counts = KINDS.map(|kind| found.iter().filter(|found| **found == Found::As(kind)).count());
    assert!(counts.iter().sum::<usize>() >= LEAST, "only {counts:?} names of {KINDS:?} were looked up");
    assert!(counts.iter().all(|count| *count >= LEAST_OF_A_KIND), "{counts:?} names of {KINDS:?} were looked up");
}

/// The span with a slip at the end of its name.
fn slipped(span: &Span) -> Span {
    let (name, rest) = span.text.split_at(span.text.find([' ', '(']).unwrap_or(span.text.len()));
    Span { text: format!("{name}zz{rest}"), ..span.clone() }
}

#[test]
fn a_slip_in_any_name_is_seen() {
    let found = |span: &&Span| matches!(library().find(&slipped(span)), Found::As(_));
    let unseen: Vec<_> = all_spans().iter().filter(found).map(shown).collect();
    hold_none("names are found with a slip in them", &unseen);
}

/// The table of the crates has a row for each.
#[test]
fn every_crate_is_on_the_map() {
    let rows = rows(&page("README.md"));
    let named: BTreeSet<_> = rows.iter().filter_map(|row| Some(row.cell("crate")?.trim_matches('`'))).collect();
    assert_eq!(named, library().crates.iter().map(|name| &name[..]).collect());
}

/// The code spans of a cell.
fn spans_in(cell: &str) -> Vec<String> {
    spans_of("", cell).into_iter().map(|span| span.text).collect()
}

/// Whether a theorem is in one of the files that a cell names, as in `audit`, `Accepting`; true if it names none.
fn stands_there(theorem: &str, place: &str) -> bool {
    let (crates, modules): (Vec<_>, Vec<_>) =
        spans_in(place).into_iter().partition(|name| library().is_crate(name));
    let crates = if place.contains("of each crate") { &library().crates } else { &crates };
    modules.is_empty() || library().stands_in(theorem, crates, &modules)
}

/// Where a table has a column for crate and file, the theorems beside it are in one of these files.
#[test]
fn theorems_stand_in_the_files_that_the_tables_say() {
    let (mut held, mut missing) = (0, Vec::new());
    for row in rows(&page(CONTRACTS)) {
        let (Some(place), Some(theorems)) = (row.cell("crate, file"), row.cell("theorem")) else { continue };
        let is_theorem = |name: &String| library().is_theorem(name) || library().is_proved(name);
        let named = spans_in(theorems).into_iter().filter(|name| name.trim_start_matches('_').contains('_'));
        let named = named.filter(is_theorem);
        for theorem in named {
            held += 1;
            if !stands_there(&theorem, place) {
                missing.push(format!("`{theorem}` in {place}"));
            }
        }
    }
    hold_none("theorems are not in the files that are named beside them", &missing);
    assert!(held >= 20, "{CONTRACTS} names {held} theorems beside `crate, file`");
}

#[test]
fn theorems_stand_somewhere() {
    assert!(stands_there("accepted_exactly", "`audit`, `Accepting`; `walk`, `Broken`"));
    assert!(stands_there("accepted_exactly", "`Accepting` of each crate"));
    assert!(!stands_there("accepted_exactly", "`audit`, `Refusing`"));
    assert!(!stands_there("accepted_exactly", "`walk`, `Accepting`"));
    assert!(!stands_there("never_accepted", "`audit`, `Accepting`"));
}

/// The public functions of a file that have a `requires`. A function's head ends with a line that is just `{`.
fn asking_in(code: &str) -> Vec<String> {
    let heads = code.split("pub fn ").skip(1).filter_map(|rest| Some(&rest[..rest.find("{\n")?]));
    // a clause may have a name, or a star
    let asks = heads.filter(|head| head.lines().any(|line| line.trim_start().starts_with("requires")));
    asks.filter_map(|head| Some(head[..head.find(['(', '<'])?].to_string())).collect()
}

/// Those of all crates that are libraries.
fn asking() -> BTreeSet<String> {
    let crates = library().crates.iter().map(|name| format!("crates/{name}/src"));
    let libraries = crates.filter(|folder| root().join(folder).join("lib.rt").exists());
    libraries
        .flat_map(|src| names_in(&root().join(&src)).into_iter().map(move |file| format!("{src}/{file}")))
        .flat_map(|path| asking_in(&page(&path)))
        .collect()
}

/// The page lists the public functions that ask something, all of them and no others.
#[test]
fn what_asks_is_listed() {
    let rows = rows(&page(CONTRACTS));
    let cells = rows.iter().filter(|row| row.cell("why").is_some()).filter_map(|row| row.cell("function"));
    let last = |name: String| name.rsplit("::").next().unwrap_or_default().to_string();
    let listed: BTreeSet<_> = cells.flat_map(spans_in).map(last).collect();
    assert_eq!(listed, asking());
    assert!(listed.len() >= 20, "{CONTRACTS} lists {} functions", listed.len());
}

#[test]
fn a_requires_is_seen() {
    let asks = "pub fn a(n: u32)\n    requires low { n }\n    ensures { n }\n{\n}\n";
    let hidden = "pub(crate) fn b()\n    requires { n }\n{\n}\n";
    let plain = "// pub\npub fn c()\n{\n}\n";
    assert_eq!(asking_in(&[asks, hidden, plain].join("\n")), ["a"]);
}

/// A wrong program: its crate, its name, and whether the gate tries it.
type Edit = (String, String, String);

/// Those that there are.
fn edits_there() -> BTreeSet<Edit> {
    let edit = |path: &String| {
        let parts: Vec<_> = path.strip_suffix(".edit")?.split('/').collect();
        let (of, name, place) = match parts[..] {
            ["crates", of, "must-fail", name] => (of, name, "gate"),
            ["wrong-programs", of, name] => (of, name, "outside"),
            _ => return None,
        };
        Some((of.to_string(), name.to_string(), place.to_string()))
    };
    library().paths.iter().filter_map(edit).collect()
}

/// Those of the page, by its tables under the headings of crates.
fn edits_on_page() -> BTreeSet<Edit> {
    let edit = |row: Row| {
        let (name, place) = (row.cell("edit")?.trim_matches('`').to_string(), row.cell("where")?.to_string());
        Some((row.section?, name, place))
    };
    rows(&page(WRONG_PROGRAMS)).into_iter().filter_map(edit).collect()
}

#[test]
fn every_wrong_program_is_on_its_page() {
    let (there, named) = (edits_there(), edits_on_page());
    let listed = |edits: Vec<&Edit>| -> Vec<String> {
        edits.iter().map(|(of, name, place)| format!("{of}/{name} ({place})")).collect()
    };
    hold_none("wrong programs are not on the page", &listed(there.difference(&named).collect()));
    hold_none("wrong programs of the page are not there", &listed(named.difference(&there).collect()));
    assert!(named.len() >= 100, "{WRONG_PROGRAMS} has {} wrong programs", named.len());
}

/// The page says how many wrong programs each crate has, in the gate and outside.
#[test]
fn the_wrong_programs_are_counted() {
    let mut counts: BTreeMap<String, [usize; 2]> = BTreeMap::new();
    for (of, _, place) in edits_there() {
        for name in [format!("`{of}`"), "all".to_string()] {
            counts.entry(name).or_default()[usize::from(place == "outside")] += 1;
        }
    }
    let number = |cell: &str| cell.parse::<usize>().expect("a count");
    let count = |row: Row| {
        let counts = [number(row.cell("gate")?), number(row.cell("outside")?)];
        Some((row.cell("crate")?.to_string(), counts))
    };
    let said: BTreeMap<_, _> = rows(&page(WRONG_PROGRAMS)).into_iter().filter_map(count).collect();
    assert_eq!(said, counts, "{WRONG_PROGRAMS} counts otherwise");
}

/// What is found for the first code span of a page with this text.
fn found(text: &str) -> Found {
    library().find(&spans_of("docs/PAGE.md", text)[0])
}

#[test]
fn names_of_each_kind_are_found() {
    for (kind, text) in [
        (Kind::File, "`crates/audit/specs/Audits.antt`"),
        (Kind::File, "`proofs/Words.antt`"),
        (Kind::File, "`src/`"),
        (Kind::File, "`crates/CRATE/must-fail/NAME.edit`"),
        (Kind::Edit, "`audit/one_report`"),
        (Kind::Edit, "`one_report`"),
        (Kind::Crate, "the crate `words`"),
        (Kind::Module, "`Accepting`"),
        (Kind::Module, "`Sizes.*`"),
        (Kind::Member, "`Accepting.accepted_exactly`"),
        (Kind::Member, "`Disk.blocks`"),
        (Kind::Item, "`audit::audit::audit(image, claim)`"),
        (Kind::Item, "`Block::NEXT`"),
        (Kind::Word, "`accepted_exactly` in `crates/audit/proofs/Accepting.antt`"),
        (Kind::Word, "`Audits floppy`"),
        (Kind::Word, "`put_word`"),
    ] {
        assert_eq!(found(text), Found::As(kind), "{text}");
    }
}

#[test]
fn names_of_nothing_are_missing() {
    for text in [
        "`crates/audit/specs/Nothing.antt`",
        "`proofs/Nothing.antt`",
        "`nothing.rt`",
        "`audit/no_such_edit`",
        "`words/one_report`",
        "the crate `nothing`",
        "## `nothing`",
        "`NoSuchModule.*`",
        "`NoSuchModule.accepted_exactly`",
        "`Accepting.never_accepted`",
        "`Disk.nothing`",
        "`audit::audit::nothing`",
        "`Block::NOTHING`",
        "`Volume` of `words`",
        "`accepted_exactly` in `crates/audit/proofs/Refusing.antt`",
        "`never_accepted`",
        "`noSuchOf floppy`",
        "`no_such_function`",
        "`NoSuchType`",
    ] {
        assert_eq!(found(text), Found::Missing, "{text}");
    }
}

/// Under the heading of a crate, files, theorems, functions and wrong programs are those of the crate.
#[test]
fn a_section_is_about_its_crate() {
    let under = |of: &str, text: &str| library().find(&spans_of(CONTRACTS, &format!("## `{of}`\n{text}"))[1]);
    let functions = ["`audit::audit_on`", "`directories::walk_entry`"];
    let others = ["`Bits.antt`", "`specs/Bits.antt`", "`Accepting.accepted_exactly`", "`one_report`"];
    for text in functions.into_iter().chain(others) {
        assert!(matches!(under("audit", text), Found::As(_)), "{text}");
        assert_eq!(under("words", text), Found::Missing, "{text}");
    }
    assert_eq!(under("words", "`one_report` of `audit`"), Found::As(Kind::Edit));
}

#[test]
fn what_is_no_name_is_not_looked_up() {
    let numbers_and_signs = ["`42`", "`x`", "`..`", "`/`", "`-`", "`2 ^ 32`", "`--gate`"];
    let expressions = ["`rt check words`", "`&mut [Hunk]`", "`let x = y`"];
    let of_others = ["`target/fuzz`", "`std::fs`", "`usize`"];
    for text in [&numbers_and_signs[..], &expressions, &of_others].concat() {
        assert_eq!(found(text), Found::Nothing, "{text}");
    }
}

#[test]
fn an_ending_goes_with_the_name_before_it() {
    let spans = spans_of(CONTRACTS, "`Refusing.refused_1`, `_2` and `_99`");
    let found: Vec<_> = spans.iter().map(|span| library().find(span)).collect();
    assert_eq!(found, [Found::As(Kind::Member), Found::As(Kind::Word), Found::Missing]);
}

/// In a list that begins with `Module.name`, the theorems after it are of the same module.
#[test]
fn a_list_is_of_one_module() {
    let last = |text: &str| library().find(spans_of(CONTRACTS, text).last().expect("a span"));
    assert_eq!(
        last("`Accepting.accepted_exactly`, `accepted_report` and `refused_claims`"),
        Found::As(Kind::Member)
    );
    assert_eq!(last("`Refusing.refused_exactly`, `refused_1` and `refused_claims`"), Found::Missing);
    assert_eq!(last("`Refusing.refused_exactly`; `refused_claims`"), Found::As(Kind::Word));
}

/// The longest line of code, of a comment and of a page. A row of a table may be longer.
const COLUMNS: usize = 120;

fn is_long(line: &str) -> bool {
    !line.trim_start().starts_with('|') && line.chars().count() > COLUMNS
}

#[test]
fn lines_are_not_too_long() {
    let kinds = [".antt", ".rt", ".rs", ".c", ".h", ".md"];
    let files: Vec<_> =
        library().paths.iter().filter(|path| kinds.iter().any(|kind| path.ends_with(kind))).collect();
    assert!(files.len() >= 400, "only {} files were looked at", files.len());
    let long = |path: &&String| {
        let lines = page(path);
        let long = lines.lines().enumerate().filter(|(_, line)| is_long(line));
        long.map(|(at, _)| format!("{path}:{}", at + 1)).collect::<Vec<_>>()
    };
    hold_none("lines have more than 120 columns", &files.iter().flat_map(long).collect::<Vec<_>>());
    assert!(is_long(&"x".repeat(COLUMNS + 1)) && !is_long(&"x".repeat(COLUMNS)));
    assert!(!is_long(&format!("| {} |", "x".repeat(COLUMNS))));
}

/// The list of words that are not looked up holds no more than the pages need.
#[test]
fn every_allowed_word_is_used() {
    let spans = all_spans();
    let used = |word: &str| spans.iter().any(|span| span.text == word && library().find(span) == Found::Nothing);
    let unused: Vec<_> = ALLOWED.iter().filter(|word| !used(word)).map(|word| word.to_string()).collect();
    hold_none("words are allowed for nothing", &unused);
}
