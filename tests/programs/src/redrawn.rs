//! What `redraw` told of the files of a folder.

use crate::folder::Folder;
use crate::process::{Ended, command};
use crate::script;
use std::ffi::OsStr;
use std::process::Command;

/// A text and its record that differ from those of the example.
pub const ONE_ROW: &str = "REF,1,TOC\nA,5\n";
pub const ONE_ROW_RECORD: &str = "ENV,1,TOC\nC,327680\nR,0,0,0,S\nW,1,65536\n";
/// What is told where they are drawn, and where the example is.
pub const ONE_ROW_TOLD: &str = "centre TOC 5.0 ppb, radius 0.0 steps";
pub const REFERENCE_TOLD: &str = "centre TOC 3.0 ppb, CND 0.0040 µS/cm, radius 5.0 steps";

/// `redraw` of folders.
pub fn command_of<Name: AsRef<OsStr>>(folders: &[Name]) -> Command {
    let mut command = command(script::path());
    command.arg("redraw").args(folders);
    command
}

/// Redraws a folder to the end.
pub fn redraw(folder: &Folder) -> Ended {
    script::redraw(folder.path())
}

/// Asserts the lines on standard output, the last of which has the counts, and the status.
pub fn assert_told(ended: &Ended, lines: &[&str], status: i32) {
    let told: Vec<&str> = ended.text().lines().collect();
    assert_eq!(told, lines, "{}", ended.messages);
    assert_eq!(ended.status, status, "{}", ended.messages);
}

/// Asserts the counts of drawn, unchanged, refused and failed texts.
pub fn assert_counts(ended: &Ended, [drawn, unchanged, refused, failed]: [usize; 4]) {
    let counts =
        format!("{drawn} drawn, {unchanged} unchanged, {refused} refused, {failed} failed");
    let last = ended.text().lines().last();
    assert_eq!(last, Some(counts.as_str()), "{}", ended.messages);
    let status = match (failed, refused) {
        (0, 0) => 0,
        (0, _) => 1,
        _ => 2,
    };
    assert_eq!(ended.status, status, "{}", ended.messages);
}

/// What became of a file, and what is told of it besides.
pub fn outcome<'e>(ended: &'e Ended, name: &str) -> (&'e str, &'e str) {
    let mut found = ended.text().lines().filter_map(|line| {
        let (outcome, rest) = line.split_once(' ')?;
        let besides = rest.strip_prefix(name)?;
        match besides.strip_prefix(": ") {
            None if besides.is_empty() => Some((outcome, "")),
            besides => Some((outcome, besides?)),
        }
    });
    let only = found.next().unwrap_or_else(|| panic!("no line of {name}"));
    assert!(found.next().is_none(), "two lines of {name}");
    only
}

/// The names that no reference text and no record has.
pub fn other_names(folder: &Folder) -> Vec<String> {
    let mut names = folder.names();
    names.retain(|name| !name.ends_with(".ref") && !name.ends_with(".env"));
    names
}
