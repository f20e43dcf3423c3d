//! Standard output: a command's whole answer is written at once, or told not to be.

use crate::failure::Failure;
use std::fs::File;
use std::io::Write;
use std::mem::ManuallyDrop;
use std::os::fd::FromRawFd;

pub fn print(answer: &[u8]) -> Result<(), Failure> {
    // SAFETY: descriptor 1 is open (`descriptors::require_open`), and is not closed here.
    let mut output = ManuallyDrop::new(unsafe { File::from_raw_fd(1) });
    let written = output.write_all(answer);
    written.map_err(|error| Failure::of("standard output", &error))
}
