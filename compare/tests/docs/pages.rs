//! The pages, and the code spans in them: what stands between two backticks, outside of code blocks.

use std::path::{Path, PathBuf};

use crate::tree::{names_in, text};

/// The top of the repository.
pub fn root() -> PathBuf {
    Path::new(env!("CARGO_MANIFEST_DIR")).parent().expect("a repository").to_path_buf()
}

/// The pages of docs/ that tell what was, and so name what is there no more.
const OF_THE_PAST: [&str; 3] = ["DESIGN-PASS.md", "LOOK-BACK.md", "PORT.md"];

/// The pages by their paths from the top, but those of the past.
pub fn pages() -> Vec<String> {
    let is_page = |name: &String| name.ends_with(".md") && !OF_THE_PAST.contains(&&name[..]);
    let docs = names_in(&root().join("docs")).into_iter().filter(is_page);
    let mut pages: Vec<_> = docs.map(|name| format!("docs/{name}")).collect();
    let others = ["README.md", "CONTRIBUTING.md", "CHANGELOG.md", "samples/README.md", "speed/README.md"];
    pages.extend(others.map(String::from));
    pages
}

/// A code span, and what a reader sees around it.
#[derive(Clone, Default)]
pub struct Span {
    pub page: String,
    /// The number of its line, from 1.
    pub line: usize,
    pub text: String,
    /// What stands before it and after it in the line.
    pub before: String,
    pub after: String,
    /// The code span at the start of the heading over it, if there is one: a crate.
    pub section: Option<String>,
    /// It has to be a crate: it begins a heading, it stands in a column of crates, or it is called a crate.
    pub must_be_crate: bool,
}

/// Which lines of a page are code: those in a fence, and those after an empty line that stand four columns further
/// in than the text around them.
#[derive(Default)]
struct Blocks {
    fence: bool,
    code: bool,
    blank: bool,
    /// The column at which the text of the list stands.
    list: usize,
}

impl Blocks {
    fn is_code(&mut self, line: &str) -> bool {
        let words = line.trim_start();
        if words.starts_with("```") {
            self.fence = !self.fence;
            return true;
        }
        if self.fence || words.is_empty() {
            self.blank = true;
            return true;
        }
        let indent = line.len() - words.len();
        self.code = indent >= self.list + 4 && (self.code || self.blank);
        self.list = match marker(words) {
            Some(width) if !self.code => indent + width,
            None if indent == 0 && self.blank => 0,
            _ => self.list,
        };
        self.blank = false;
        self.code
    }
}

/// How wide the mark of a list is with which these words begin.
fn marker(words: &str) -> Option<usize> {
    let (mark, _) = words.split_once(' ')?;
    let number = mark.strip_suffix('.').is_some_and(|n| !n.is_empty() && n.bytes().all(|b| b.is_ascii_digit()));
    (mark == "-" || number).then_some(mark.len() + 1)
}

/// The title of a section, if this line begins one.
fn title(line: &str) -> Option<&str> {
    line.strip_prefix("# ").or(line.strip_prefix("## "))
}

/// The code span with which a title begins.
fn leading_span(title: &str) -> Option<String> {
    title.strip_prefix('`').and_then(|title| title.split('`').next()).map(String::from)
}

/// What the page has said so far that a span's meaning hangs on.
#[derive(Default)]
struct Reader {
    blocks: Blocks,
    section: Option<String>,
    /// In a table whose first column is named `crate`.
    crates: bool,
}

impl Reader {
    fn line(&mut self, page: &str, number: usize, line: &str) -> Vec<Span> {
        self.crates = line.starts_with("| crate |") || (self.crates && line.starts_with('|'));
        if self.blocks.is_code(line) {
            return Vec::new();
        }
        if let Some(title) = title(line) {
            self.section = leading_span(title);
        }
        let mut spans = pieces(page, number, line);
        for span in &mut spans {
            let called = span.before.ends_with("crate ") || span.after.starts_with(" crate");
            let heads = span.before.starts_with('#') && span.before.trim_matches('#') == " ";
            span.must_be_crate = called || heads || (self.crates && span.before == "| ");
            span.section = self.section.clone();
        }
        spans.extend(links(page, number, line));
        spans
    }
}

/// The spans of a line that is no code.
fn pieces(page: &str, number: usize, line: &str) -> Vec<Span> {
    let parts: Vec<_> = line.split('`').collect();
    let whole = parts.len() % 2 == 1 && !line.contains("``");
    assert!(whole, "{page}:{number}: a code span has to end in its line");
    let span = |at: usize| Span {
        page: page.to_string(),
        line: number,
        text: parts[at].to_string(),
        before: parts[..at].join("`"),
        after: parts[at + 1..].join("`"),
        ..Span::default()
    };
    (1..parts.len()).step_by(2).map(span).collect()
}

/// The files of the repository to which a line links, as spans.
fn links(page: &str, number: usize, line: &str) -> Vec<Span> {
    let targets = line.split("](").skip(1).filter_map(|rest| rest.split([')', '#']).next());
    let here = targets.filter(|target| !target.is_empty() && !target.contains("://"));
    here.map(|to| Span { page: page.to_string(), line: number, text: to.to_string(), ..Span::default() }).collect()
}

/// The spans of a page with this text.
pub fn spans_of(page: &str, text: &str) -> Vec<Span> {
    let mut reader = Reader::default();
    let lines = text.lines().enumerate();
    lines.flat_map(|(index, line)| reader.line(page, index + 1, line)).collect()
}

/// The spans of all pages.
pub fn all_spans() -> Vec<Span> {
    pages().iter().flat_map(|page| spans_of(page, &text(&root().join(page)))).collect()
}

/// A row of a table, with the section it is in and the cells of the table's heading.
pub struct Row {
    pub section: Option<String>,
    pub heading: Vec<String>,
    pub cells: Vec<String>,
}

impl Row {
    /// What is in the column with this heading.
    pub fn cell(&self, heading: &str) -> Option<&str> {
        let at = self.heading.iter().position(|cell| cell == heading)?;
        self.cells.get(at).map(|cell| &cell[..])
    }
}

/// The cells of a line of a table; none for another line.
fn cells(line: &str) -> Vec<String> {
    let row = line.strip_prefix('|').and_then(|row| row.strip_suffix('|'));
    row.map(|row| row.split('|').map(|cell| cell.trim().to_string()).collect()).unwrap_or_default()
}

/// The rows of all tables of a page with this text.
pub fn rows(text: &str) -> Vec<Row> {
    let (mut section, mut heading, mut rows) = (None, Vec::new(), Vec::new());
    for line in text.lines() {
        if let Some(title) = title(line) {
            section = leading_span(title);
        }
        let cells = cells(line);
        if cells.is_empty() {
            heading.clear();
        } else if heading.is_empty() {
            heading = cells;
        } else if !line.starts_with("|--") {
            rows.push(Row { section: section.clone(), heading: heading.clone(), cells });
        }
    }
    rows
}

#[cfg(test)]
mod tests {
    use super::*;

    fn texts(text: &str) -> Vec<String> {
        spans_of("page", text).into_iter().map(|span| span.text).collect()
    }

    #[test]
    fn code_has_no_spans() {
        assert_eq!(texts("`a`\n```\n`b`\n```\n`c`\n\n    `d`\n\n    `e`\n`f`\n    `g`"), ["a", "c", "f", "g"]);
        assert_eq!(texts("- `a`\n  `b`\n\n    `c`\n\n      `d`\n\n`e`\n\n    `f`"), ["a", "b", "c", "e"]);
        assert_eq!(texts("11. `a`\n    `b`\n\n        `c`"), ["a", "b"]);
    }

    #[test]
    fn links_are_spans() {
        assert_eq!(
            texts("`a` and ![a plot](plot.svg), [b](B.md#part) [c](https://c) [d](#d)"),
            ["a", "plot.svg", "B.md"]
        );
    }

    #[test]
    fn rows_of_tables() {
        let first = "## `walk`\n| a | b |\n|---|---|\n| 1 | 2 |\n| 3 | 4 |\n\n";
        let rows = rows(&format!("{first}## Other\n| b | a |\n|---|---|\n| 5 | 6 |"));
        let seen: Vec<_> = rows.iter().map(|row| (row.section.as_deref(), row.cell("a"), row.cell("c"))).collect();
        assert_eq!(
            seen,
            [(Some("walk"), Some("1"), None), (Some("walk"), Some("3"), None), (None, Some("6"), None)]
        );
    }

    #[test]
    fn headings_and_tables_name_crates() {
        let table = "| crate | y |\n|---|---|\n| `z` | `u` |\n\n| `v` |";
        let text = format!("## `walk`: theorems\nof `x`\n{table}\n## Other\ncrate `w`, `k` crate");
        let spans = spans_of("page", &text);
        let crates: Vec<_> = spans.iter().filter(|span| span.must_be_crate).map(|span| &span.text[..]).collect();
        assert_eq!(crates, ["walk", "z", "w", "k"]);
        let within: Vec<_> =
            spans.iter().filter(|span| span.section.is_some()).map(|span| &span.text[..]).collect();
        assert_eq!(within, ["walk", "x", "z", "u", "v"]);
        assert_eq!((spans[1].line, &spans[1].before[..], &spans[1].after[..]), (2, "of ", ""));
    }
}
