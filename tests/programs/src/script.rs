//! The command run with arguments and input.

use crate::process::{Ended, command, end};
use std::ffi::OsStr;
use std::path::{Path, PathBuf};

/// The program of `./envelope`, as it has been built.
pub fn path() -> PathBuf {
    let path = crate::root().join("cli/target/release/envelope");
    assert!(path.exists(), "build it first: ./envelope --version");
    path
}

/// `./envelope` itself, which builds that program where the sources have changed, and starts it.
pub fn starter() -> PathBuf {
    crate::root().join("envelope")
}

pub fn envelope<Word: AsRef<OsStr>>(words: &[Word], input: &[u8]) -> Ended {
    end(command(path()).args(words), input)
}

pub fn redraw(folder: &Path) -> Ended {
    envelope(&[OsStr::new("redraw"), folder.as_os_str()], b"")
}
