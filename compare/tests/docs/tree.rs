//! The files of the repository.

use std::fs;
use std::path::Path;

/// Folders that are made by tools.
const MADE: [&str; 3] = ["target", "out", ".git"];

pub fn text(path: &Path) -> String {
    fs::read_to_string(path).unwrap_or_else(|e| panic!("{}: {e}", path.display()))
}

/// What is in a folder, by name.
pub fn names_in(folder: &Path) -> Vec<String> {
    let entries = fs::read_dir(folder).unwrap_or_else(|e| panic!("{}: {e}", folder.display()));
    let name = |entry: fs::DirEntry| entry.file_name().into_string().expect("a name of ours");
    let mut names: Vec<_> = entries.map(|entry| name(entry.expect("an entry of a folder"))).collect();
    names.sort();
    names
}

/// The paths of all files and folders under this one, each from there.
pub fn paths_under(folder: &Path) -> Vec<String> {
    let mut paths = Vec::new();
    for name in names_in(folder).into_iter().filter(|name| !MADE.contains(&&name[..])) {
        let path = folder.join(&name);
        let inner = if path.is_dir() { paths_under(&path) } else { Vec::new() };
        paths.extend(inner.iter().map(|inner| format!("{name}/{inner}")));
        paths.push(name);
    }
    paths
}

/// Whether a path ends in these parts; a `*` in a part stands for anything.
pub fn ends_in(path: &str, parts: &[&str]) -> bool {
    let last: Vec<_> = path.split('/').collect();
    last.len() >= parts.len()
        && last[last.len() - parts.len()..].iter().zip(parts).all(|(part, of)| fits(part, of))
}

fn fits(part: &str, pattern: &str) -> bool {
    match pattern.split_once('*') {
        Some((start, end)) => part.len() >= pattern.len() - 1 && part.starts_with(start) && part.ends_with(end),
        None => part == pattern,
    }
}

#[cfg(test)]
mod tests {
    use super::*;

    #[test]
    fn ends_of_paths() {
        assert!(ends_in("crates/audit/specs/Bits.antt", &["specs", "Bits.antt"]));
        assert!(ends_in("crates/audit/specs/Bits.antt", &["crates", "*", "specs", "*.antt"]));
        assert!(!ends_in("crates/audit/specs/Bits.antt", &["Bits"]));
        assert!(!ends_in("Bits.antt", &["specs", "Bits.antt"]));
        assert!(!ends_in("crates/audit/specs/Bits.antt", &["specs", "*.rt"]));
    }
}
