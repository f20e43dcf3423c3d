//! The files of stored cases, written by a program that is given their paths.

use crate::random::{Random, seed_from_environment};
use std::io::{Error, ErrorKind};

/// What is stored: how many cases, the input's bytes and the output that is stated of it.
pub type Stored = (usize, Vec<u8>, String);

/// Writes what is made of a seed to the two paths of the program's arguments; the name is the program's and says what it stores.
pub fn write(
    name: &str,
    seed: u64,
    stored: impl FnOnce(&mut Random) -> Stored,
) -> std::io::Result<()> {
    let mut paths = std::env::args().skip(1);
    let (Some(input), Some(output), None) = (paths.next(), paths.next(), paths.next()) else {
        return Err(Error::new(
            ErrorKind::InvalidInput,
            format!("two paths: {name} INPUT OUTPUT"),
        ));
    };
    let seed = seed_from_environment(seed);
    let (count, bytes, stated) = stored(&mut Random::new(seed));
    println!("seed {seed}: {count} {name}, {} bytes", bytes.len());
    std::fs::write(input, bytes)?;
    std::fs::write(output, stated)
}
