//! Writes the samples into a folder: `cargo run --manifest-path compare/Cargo.toml --bin make_samples -- FOLDER`.

use std::path::Path;
use std::process::ExitCode;

fn main() -> ExitCode {
    let words: Vec<_> = std::env::args_os().skip(1).collect();
    let [folder] = &words[..] else {
        eprintln!("make_samples needs a FOLDER, and nothing else");
        return ExitCode::FAILURE;
    };
    for (name, bytes) in compare::samples::all() {
        let place = Path::new(folder).join(name);
        if let Err(error) = std::fs::write(&place, bytes) {
            eprintln!("{}: {error}", place.display());
            return ExitCode::FAILURE;
        }
    }
    ExitCode::SUCCESS
}
