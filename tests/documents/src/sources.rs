//! The sources by name.

use crate::{root, text};
use std::collections::{BTreeMap, BTreeSet};
use std::fs;
use std::path::Path;

/// What the repository has.
pub struct Sources {
    /// The crates, each with the names that its sources declare.
    pub crates: BTreeMap<String, BTreeSet<String>>,
    /// Files of definitions and of laws as crate and name, `text` and `Parts`.
    pub files: BTreeSet<(String, String)>,
    /// Must-fail edits as crate and name.
    pub edits: BTreeSet<(String, String)>,
}

impl Sources {
    /// Those of the repository.
    pub fn new() -> Sources {
        let mut sources = Sources {
            crates: BTreeMap::new(),
            files: BTreeSet::new(),
            edits: BTreeSet::new(),
        };
        let listed = text("crates.txt");
        for line in listed.lines().filter(|line| !line.starts_with('#')) {
            // `NAME: LIBRARY ..`, or `NAME staticlib: LIBRARY ..`.
            if let Some((name, _)) = line.split_once(':') {
                sources.add_crate(name.split(' ').next().expect("a name"));
            }
        }
        sources
    }

    /// Whether some crate declares the name, or is called so, or a file, folder or edit is.
    pub fn has(&self, name: &str) -> bool {
        self.crates.contains_key(name)
            || self.crates.values().any(|names| names.contains(name))
            || self.files.iter().any(|(_, file)| file == name)
            || self.edits.iter().any(|(_, edit)| edit == name)
    }

    fn add_crate(&mut self, name: &str) {
        let folder = root().join("crates").join(name);
        let mut names = BTreeSet::new();
        let mut files = Vec::new();
        // What the prover keeps is in `out`.
        for part in ["src", "specs", "proofs", "must-fail"] {
            let part = folder.join(part);
            if part.exists() {
                gather(&part, &mut files);
            }
        }
        for file in files {
            let path = Path::new(&file);
            let stem = path.file_stem().expect("a name").to_string_lossy();
            let stem = stem.into_owned();
            match path.extension().and_then(|end| end.to_str()) {
                Some("edit") => _ = self.edits.insert((name.to_string(), stem)),
                Some("antt") => {
                    insert(&mut names, definitions(&read(path)));
                    self.files.insert((name.to_string(), stem));
                }
                Some("rt") => {
                    insert(&mut names, read(path).lines().filter_map(item));
                    names.insert(stem);
                }
                _ => {}
            }
        }
        self.crates.insert(name.to_string(), names);
    }
}

impl Default for Sources {
    fn default() -> Sources {
        Sources::new()
    }
}

fn read(path: &Path) -> String {
    fs::read_to_string(path).expect("a source")
}

/// Every file below a folder.
fn gather(folder: &Path, files: &mut Vec<String>) {
    for entry in fs::read_dir(folder).expect("a folder") {
        let path = entry.expect("an entry").path();
        match path.is_dir() {
            true => gather(&path, files),
            false => files.push(path.to_str().expect("a plain name").to_string()),
        }
    }
}

fn insert<'a>(names: &mut BTreeSet<String>, declared: impl IntoIterator<Item = &'a str>) {
    let declared = declared
        .into_iter()
        .map(|name| name.trim_matches(['«', '»']));
    names.extend(declared.map(str::to_string));
}

/// The public names that a file of antt declares: definitions, laws, records, fields and constructors.
fn definitions(source: &str) -> Vec<&str> {
    let mut names = Vec::new();
    let mut constructors = false;
    for line in source.lines() {
        let words: Vec<&str> = line.split_whitespace().collect();
        constructors &= !words.is_empty();
        let start = words
            .iter()
            .position(|word| !["abbrev", "unfoldable", "pub", "record", "data"].contains(word));
        let Some(start) = start else { continue };
        let public = words[..start].contains(&"pub") || constructors;
        let stated = words[..start]
            .iter()
            .any(|word| ["record", "data"].contains(word));
        if public && (stated || words.get(start + 1) == Some(&":")) {
            names.push(words[start]);
        }
        constructors |= words[..start].contains(&"data");
    }
    names
}

/// The name that a line of code declares: a function, constant, type, variant, field or clause of a contract.
fn item(line: &str) -> Option<&str> {
    const KINDS: [&str; 6] = ["fn", "const", "struct", "enum", "type", "ensures"];
    let mut words = line.split_whitespace();
    let line = line.trim();
    let name = match words.find(|word| KINDS.contains(word)) {
        Some(_) => words.next()?,
        None => line,
    };
    let end = name.find(|c: char| !c.is_ascii_alphanumeric() && c != '_');
    let (name, after) = name.split_at(end.unwrap_or(name.len()));
    let declares = line != name && line.split_whitespace().any(|word| KINDS.contains(&word))
        || after.starts_with([',', '(', ':'])
        || after.starts_with(" {");
    (declares && !name.is_empty()).then_some(name)
}
