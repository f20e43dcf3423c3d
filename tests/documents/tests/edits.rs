//! Each must-fail edit as a file: what it replaces stands exactly once where it says, when its turn comes.

use documents::sources::Sources;
use documents::text;

/// The file that an edit changes, and the lines that it replaces by others, in their order.
fn edit(owner: &str, name: &str) -> (String, Vec<(String, String)>) {
    let edit = text(&format!("crates/{owner}/must-fail/{name}.edit"));
    let mut lines = edit.lines();
    let file = lines.next().and_then(|line| line.strip_prefix("file: "));
    let file = file.unwrap_or_else(|| panic!("{owner}/{name}: no file"));
    let mut pairs = Vec::new();
    while let Some(old) = lines.next() {
        let new = lines.next().and_then(|line| line.strip_prefix("new: "));
        match (old.strip_prefix("old: "), new) {
            (Some(old), Some(new)) => pairs.push((old.to_string(), new.to_string())),
            _ => panic!("{owner}/{name}: {old}"),
        }
    }
    (format!("crates/{owner}/{file}"), pairs)
}

#[test]
fn every_edit_applies() {
    let sources = Sources::new();
    let mut faults = Vec::new();
    for (owner, name) in &sources.edits {
        let (file, pairs) = edit(owner, name);
        let before = text(&file);
        let mut source = before.clone();
        for (old, new) in &pairs {
            let count = source.matches(old.as_str()).count();
            if count != 1 || old == new {
                faults.push(format!("{owner}/{name}: {count} times: {old}"));
            }
            source = source.replacen(old.as_str(), new, 1);
        }
        if pairs.is_empty() || source == before {
            faults.push(format!("{owner}/{name}: nothing changes"));
        }
    }
    assert!(faults.is_empty(), "{faults:#?}");
}
