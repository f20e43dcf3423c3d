//! The texts of a command, each read from its own file or from standard input, at most one byte more than
//! a text may have.

use crate::failure::{self, Failure};
use crate::shown;
use std::ffi::{OsStr, OsString};
use std::fs::File;
use std::io::{self, IsTerminal, Read};
use std::mem::ManuallyDrop;
use std::os::fd::FromRawFd;

/// The most bytes that are read: the library refuses a longer text by 1, whatever it is.
pub const READ_LIMIT: usize = 65_537;

#[derive(Clone, Debug, PartialEq, Eq)]
pub enum Source {
    Input,
    File(OsString),
}

impl Source {
    /// `-` and the other names of standard input; else a file.
    pub fn named(word: &OsStr) -> Source {
        match word.as_encoded_bytes() {
            b"-" | b"/dev/stdin" | b"/dev/fd/0" | b"/proc/self/fd/0" => Source::Input,
            _ => Source::File(word.to_owned()),
        }
    }

    /// As it is told.
    pub fn shown(&self) -> String {
        match self {
            Source::Input => "standard input".to_string(),
            Source::File(name) => shown::name(name),
        }
    }
}

/// A text and its source as it is told.
#[derive(Debug)]
pub struct Text {
    pub told: String,
    pub bytes: Vec<u8>,
}

impl Text {
    pub fn read(source: Source) -> Result<Text, Failure> {
        let bytes = match &source {
            Source::Input => read_input(),
            Source::File(name) => File::open(name).and_then(|file| read_start(&file, READ_LIMIT)),
        };
        let told = source.shown();
        match bytes {
            Ok(bytes) => Ok(Text { told, bytes }),
            Err(error) => Err(Failure::of(&told, &error)),
        }
    }

    /// Every line without its byte 10.
    pub fn lines(&self) -> impl Iterator<Item = &[u8]> {
        self.bytes
            .split_inclusive(|&byte| byte == b'\n')
            .map(|line| line.strip_suffix(b"\n").unwrap_or(line))
    }
}

/// Whoever sits at a terminal and left a text out is told what the command waits for.
fn read_input() -> io::Result<Vec<u8>> {
    // SAFETY: descriptor 0 is open (`descriptors::require_open`), and is not closed here.
    let input = ManuallyDrop::new(unsafe { File::from_raw_fd(0) });
    if input.is_terminal() {
        failure::tell("reading standard input; Ctrl-D ends it");
    }
    read_start(&input, READ_LIMIT)
}

/// The first bytes of a file, at most so many.
pub fn read_start(file: &File, limit: usize) -> io::Result<Vec<u8>> {
    let mut bytes = Vec::with_capacity(limit.min(4_096));
    file.take(limit as u64).read_to_end(&mut bytes)?;
    Ok(bytes)
}
