//! What a document cites.

use std::collections::BTreeSet;

/// The words between backquotes, each with what stands before it on its line.
pub fn quoted(text: &str) -> Vec<(&str, &str)> {
    let mut found = Vec::new();
    let mut fenced = false;
    for line in text.lines() {
        if line.starts_with("```") {
            fenced = !fenced;
        } else if !fenced {
            let mut at = 0;
            for (i, part) in line.split('`').enumerate() {
                if i % 2 == 1 {
                    found.push((&line[..at - 1], part));
                }
                at += part.len() + 1;
            }
        }
    }
    found
}

/// Edits as crate and name: those that follow the crate's name and a colon, as in crate: `edit`, `edit`.
pub fn edits(text: &str) -> BTreeSet<(String, String)> {
    let mut found = BTreeSet::new();
    let mut owner: Option<String> = None;
    for (before, word) in quoted(text) {
        if let Some(rest) = before.strip_suffix(": ") {
            let start = rest.rfind(|c: char| !c.is_ascii_lowercase() && c != '_');
            let name = &rest[start.map_or(0, |i| i + 1)..];
            owner = (!name.is_empty() && !rest.ends_with('`')).then(|| name.to_string());
        } else if !before.ends_with("`, ") {
            owner = None;
        }
        if let Some(name) = &owner {
            found.insert((name.clone(), word.to_string()));
        }
    }
    found
}

/// The names that stand for promises.
pub fn promises(text: &str) -> BTreeSet<String> {
    let words = quoted(text).into_iter().map(|(_, word)| word);
    words
        .filter(|word| word.starts_with("promise_"))
        .map(str::to_string)
        .collect()
}

/// Files of definitions as crate and name: the capitalised words that follow `crate`: up to the next mark.
pub fn files(text: &str) -> BTreeSet<(String, String)> {
    let mut found = BTreeSet::new();
    for line in text.lines() {
        let parts: Vec<&str> = line.split('`').collect();
        for pair in parts.windows(2).skip(1).step_by(2) {
            let Some(rest) = pair[1].strip_prefix(": ") else {
                continue;
            };
            let end = rest.find([';', '|', '(', ')', '.']).unwrap_or(rest.len());
            let words = rest[..end].split(", ").map(str::trim);
            for word in words.take_while(|word| word.starts_with(|c: char| c.is_ascii_uppercase()))
            {
                let word = word.split_whitespace().next().expect("a word");
                found.insert((pair[0].to_string(), word.to_string()));
            }
        }
    }
    found
}

/// Paths of files and folders of the repository; a path with a placeholder in capitals is none.
pub fn paths(text: &str) -> BTreeSet<String> {
    const TOPS: [&str; 7] = [
        "crates", "docs", "tests", "bindings", "examples", "bench", ".ci",
    ];
    let words = quoted(text).into_iter().map(|(_, word)| word);
    words
        .map(|word| word.trim_start_matches("./").trim_end_matches('/'))
        .filter(|word| {
            word.split('/')
                .next()
                .is_some_and(|top| TOPS.contains(&top))
        })
        .filter(|word| !word.contains([' ', '*', ',']))
        .filter(|word| !word.split('/').any(is_placeholder))
        .map(str::to_string)
        .collect()
}

/// A part of a path in capitals, as CRATE or NAME.edit; README.md is none.
fn is_placeholder(part: &str) -> bool {
    let stem = part.split('.').next().unwrap_or("");
    !part.ends_with(".md") && stem.len() > 1 && stem.chars().all(|c| c.is_ascii_uppercase())
}

/// Functions, constants and types, from `crate::module::name`, as the parts of the path.
pub fn items(text: &str) -> BTreeSet<Vec<String>> {
    let words = quoted(text).into_iter().map(|(_, word)| word);
    let plain = |word: &&str| {
        word.chars()
            .all(|c| c.is_ascii_alphanumeric() || "_:".contains(c))
    };
    words
        .filter(plain)
        .filter(|word| word.contains("::"))
        .map(|word| word.split("::").map(str::to_string).collect())
        .collect()
}

/// The files of definitions and of laws that a file of definitions imports, as crate and name. What the prover makes of types, of
/// contracts and of functions is no file: the last are in lower case.
pub fn imports(source: &str) -> BTreeSet<(String, String)> {
    let lines = source
        .lines()
        .filter_map(|line| line.strip_prefix("use Rattle."));
    lines
        .filter_map(|line| {
            let (from, rest) = line
                .split_once(".specs.")
                .or_else(|| line.split_once(".proofs."))?;
            let file = rest.split(['.', ' ']).next()?;
            let written = file.starts_with(|c: char| c.is_ascii_uppercase());
            written.then(|| (from.to_string(), file.to_string()))
        })
        .collect()
}

/// Words that can only be names of the sources: letters and digits with a hyphen, an underscore or a capital inside.
pub fn names(text: &str) -> BTreeSet<String> {
    let words = quoted(text).into_iter().map(|(_, word)| word);
    words
        .filter(|word| is_name(word))
        .map(str::to_string)
        .collect()
}

fn is_name(word: &str) -> bool {
    let parts: Vec<&str> = word.split(['-', '_']).collect();
    let plain = |part: &&str| !part.is_empty() && part.chars().all(|c| c.is_ascii_alphanumeric());
    let lower = word.starts_with(|c: char| c.is_ascii_lowercase());
    let joined = parts.len() > 1 || word.chars().any(|c| c.is_ascii_uppercase());
    lower && joined && parts.iter().all(plain)
}
