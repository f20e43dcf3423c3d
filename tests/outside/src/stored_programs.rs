//! The stored cases of a program, in a folder: for each case a file for each of its texts and one for its
//! output, whose names differ in their ends.

use crate::programs::{Program, TextKind, Texts};
use std::fs;
use std::io::Result;
use std::path::Path;

pub const OUTPUT: &str = "out";

/// How the files of the texts end, in the order in which a program takes them.
pub fn ends(program: Program) -> Vec<&'static str> {
    program.kinds().iter().map(|&kind| end(kind)).collect()
}

fn end(kind: TextKind) -> &'static str {
    match kind {
        TextKind::Reference => "ref",
        TextKind::Record => "env",
        TextKind::Settings => "settings",
        TextKind::Readings => "readings",
    }
}

/// The texts of the case that a file belongs to.
pub fn texts(program: Program, file: &Path) -> Result<Texts> {
    let ends = ends(program).into_iter();
    ends.map(|end| fs::read(file.with_extension(end))).collect()
}

/// Writes the output of each case of a folder, and gives how many there are.
pub fn write_outputs(program: Program, folder: &Path) -> Result<usize> {
    let mut count = 0;
    for entry in fs::read_dir(folder)? {
        let path = entry?.path();
        if path
            .extension()
            .is_some_and(|own| own == end(TextKind::Reference))
        {
            let output = program.run(&texts(program, &path)?);
            fs::write(path.with_extension(OUTPUT), output)?;
            count += 1;
        }
    }
    Ok(count)
}
