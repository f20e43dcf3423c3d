//! Writes the outputs of the stored cases of a program beside their texts: `outputs PROGRAM FOLDER`. The
//! module `stored_programs` says what the files are.

use outside::programs::PROGRAMS;
use outside::stored_programs;
use std::io::{Error, ErrorKind};

fn main() -> std::io::Result<()> {
    let mut words = std::env::args().skip(1);
    let (Some(name), Some(folder), None) = (words.next(), words.next(), words.next()) else {
        let usage = "a program and a folder: outputs PROGRAM FOLDER";
        return Err(Error::new(ErrorKind::InvalidInput, usage));
    };
    let program = PROGRAMS.into_iter().find(|program| program.name() == name);
    let program = program.ok_or_else(|| Error::new(ErrorKind::InvalidInput, "no such program"))?;
    let count = stored_programs::write_outputs(program, folder.as_ref())?;
    println!("{count} outputs of {name}");
    Ok(())
}
