//! What is no answer: told in one line on standard error, with status 2.

use crate::shown;
use std::ffi::OsStr;
use std::io::{self, Write};

#[derive(Debug)]
pub struct Failure {
    line: String,
}

impl Failure {
    pub fn new(line: impl Into<String>) -> Failure {
        Failure { line: line.into() }
    }

    pub fn usage(line: String) -> Failure {
        Failure::new(format!("{line}; see 'envelope help'"))
    }

    pub fn of_file(name: &OsStr, error: &io::Error) -> Failure {
        Failure::of(&shown::name(name), error)
    }

    /// Of a file or a stream as it is shown.
    pub fn of(shown: &str, error: &io::Error) -> Failure {
        Failure::new(format!("{shown}: {}", reason(error)))
    }

    /// Two answers of which at most one can be right.
    pub fn contradiction(line: &str) -> Failure {
        Failure::new(format!(
            "a fault of this program, nothing is answered: {line}"
        ))
    }

    pub fn line(&self) -> &str {
        &self.line
    }

    pub fn tell(&self) {
        tell(&self.line);
    }
}

/// The system's words for an error, without the number that the standard library adds.
pub fn reason(error: &io::Error) -> String {
    let text = error.to_string();
    match text.rfind(" (os error ") {
        Some(end) => text[..end].to_string(),
        None => text,
    }
}

/// A line on standard error. Where that cannot be written there is nobody to tell.
pub fn tell(line: &str) {
    let _ = io::stderr().write_all(format!("envelope: {line}\n").as_bytes());
}
