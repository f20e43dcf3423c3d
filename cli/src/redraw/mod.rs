//! Every reference text of a folder drawn into its record, in one process.
//!
//! A record is put in place whole or not at all: it is written under a name that only this run uses, flushed
//! to disk and renamed, and the folder is flushed before anything is told. What strangers do in the folder
//! meanwhile can make a file fail; it cannot make the run write elsewhere, wait, or tell what is not so.
//!
//! - `folder`: the folder, opened once and locked; its names, and files in it by that descriptor.
//! - `text`: a reference text as it was at one moment.
//! - `drawing`: what is to become of a reference text; `change`: its new figures beside the old ones.
//! - `waiting`: a new record until it has its name.
//! - `workers`: the names shared out among the processors; `progress`: how far they are.
//! - `report`: what became of each name, as it is told.

mod change;
mod drawing;
mod folder;
mod progress;
mod report;
mod text;
mod waiting;
mod workers;

use crate::arguments::Words;
use crate::failure::Failure;
use crate::shown;
use crate::status::Status;
use folder::Folder;
use report::Report;
use std::ffi::{OsStr, OsString};

/// Redraws the folders in their order. One that fails is told, and the next is redrawn.
pub fn redraw(words: &[OsString]) -> Result<Status, Failure> {
    let folders = Words::of(words, &[])?.names;
    if folders.is_empty() {
        return Err(Failure::usage("redraw takes a folder or several".into()));
    }
    let mut report = Report::new(folders.len() > 1);
    for path in &folders {
        if let Err(failure) = redraw_folder(path, &mut report)? {
            failure.tell();
            report.folder_failed();
        }
    }
    report.end()
}

/// The outer failure is that of standard output, after which nothing is drawn any more.
fn redraw_folder(path: &OsStr, report: &mut Report) -> Result<Result<(), Failure>, Failure> {
    let (folder, names) = match open(path) {
        Ok(opened) => opened,
        Err(failure) => return Ok(Err(failure)),
    };
    let mut drawn = match workers::draw_all(&folder, &names.references, report.place(path)) {
        Ok(drawn) => drawn,
        Err(error) => return Ok(Err(Failure::of_file(path, &error))),
    };
    drawn.conclude(folder.flush());
    // Whoever reads what is told may be slow: the lock is not kept meanwhile.
    drop(folder);
    report.add(path, &names.references, &drawn)?;
    if names.waiting > 0 {
        report::tell_leftovers(path, names.waiting);
    }
    Ok(Ok(()))
}

fn open(path: &OsStr) -> Result<(Folder, folder::Names), Failure> {
    let folder = Folder::open(path)?;
    let names = folder
        .names()
        .map_err(|error| Failure::of_file(path, &error))?;
    if names.references.is_empty() {
        let line = format!("there is no *.ref in the folder {}", shown::name(path));
        return Err(Failure::new(line));
    }
    Ok((folder, names))
}
