//! What the documents say of the sources, and whether it is there.
//!
//! - `sources`: crates, files, edits and declared names of the repository.
//! - `cited`: what a document cites: edits, promises, files of definitions, paths and names.

pub mod cited;
pub mod sources;

use std::fs;
use std::path::{Path, PathBuf};

/// The documents, README among them.
pub const DOCUMENTS: [&str; 11] = [
    "README.md",
    "bindings/rust/README.md",
    "docs/ARCHITECTURE.md",
    "docs/CONTRIBUTING.md",
    "docs/DECISIONS.md",
    "docs/FORMATS.md",
    "docs/PROMISES.md",
    "docs/PROVING.md",
    "docs/READING.md",
    "docs/SPEED.md",
    "docs/landings/README.md",
];

/// The repository's folder.
pub fn root() -> PathBuf {
    let package = Path::new(env!("CARGO_MANIFEST_DIR"));
    package.join("../..").canonicalize().expect("the root")
}

/// A text of the repository.
pub fn text(path: &str) -> String {
    let text = fs::read_to_string(root().join(path));
    text.unwrap_or_else(|error| panic!("{path}: {error}"))
}

/// The table that follows a heading in a document.
pub fn table<'a>(document: &'a str, heading: &str) -> &'a str {
    let after = document.split(heading).nth(1);
    let after = after.unwrap_or_else(|| panic!("no {heading}"));
    let table = after.trim_start_matches('\n').split("\n\n").next();
    table.expect("a table")
}

/// The words between backquotes of that table.
pub fn words<'a>(document: &'a str, heading: &str) -> Vec<&'a str> {
    let quoted = cited::quoted(table(document, heading)).into_iter();
    quoted.map(|(_, word)| word).collect()
}
