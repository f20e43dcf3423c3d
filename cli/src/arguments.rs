//! The words behind a command: options, and names of texts.

use crate::failure::Failure;
use crate::help;
use crate::shown;
use crate::texts::Source;
use std::ffi::{OsStr, OsString};

/// The words of a command, apart.
#[derive(Debug, Default)]
pub struct Words {
    /// The options that were given, of those that the command has.
    pub options: Vec<&'static str>,
    /// Every other word.
    pub names: Vec<OsString>,
}

impl Words {
    /// Words that start with `-` are options, `-` itself and those behind `--` aside.
    pub fn of(words: &[OsString], known: &[&'static str]) -> Result<Words, Failure> {
        let mut found = Words::default();
        let mut words = words.iter();
        for word in words.by_ref() {
            let bytes = word.as_encoded_bytes();
            if bytes == b"--" {
                break;
            } else if bytes.len() < 2 || bytes[0] != b'-' {
                found.names.push(word.clone());
            } else if let Some(option) = known.iter().find(|option| option.as_bytes() == bytes) {
                found.options.push(option);
            } else {
                return Err(Failure::new(no_option(word)));
            }
        }
        found.names.extend(words.cloned());
        Ok(found)
    }

    pub fn has(&self, option: &str) -> bool {
        self.options.contains(&option)
    }

    /// No name at all.
    pub fn require_none(&self, command: &str) -> Result<(), Failure> {
        match self.names.is_empty() {
            true => Ok(()),
            false => Err(Failure::usage(format!("{command} takes no more words"))),
        }
    }

    /// Exactly `count` texts, a last one that is left out being standard input, which is one of them at
    /// most.
    pub fn texts(&self, command: &str, count: usize) -> Result<Vec<Source>, Failure> {
        let mut texts: Vec<Source> = self.names.iter().map(|word| Source::named(word)).collect();
        if texts.len() + 1 == count {
            texts.push(Source::Input);
        }
        if texts.len() != count {
            return Err(other_count(command, texts.len() < count));
        }
        require_one_input(command, &texts)?;
        Ok(texts)
    }
}

pub fn require_one_input(command: &str, texts: &[Source]) -> Result<(), Failure> {
    let inputs = texts.iter().filter(|text| **text == Source::Input).count();
    match inputs {
        0 | 1 => Ok(()),
        _ => Err(Failure::usage(format!(
            "standard input can be only one of the texts of {command}"
        ))),
    }
}

/// Another number of texts than a command takes.
pub fn other_count(command: &str, are_few: bool) -> Failure {
    let count = if are_few { "few" } else { "many" };
    let usage = help::usage_of(command);
    Failure::new(format!("too {count} texts for {command}; usage: {usage}"))
}

fn no_option(word: &OsStr) -> String {
    let word = shown::name(word);
    format!("there is no option {word}; for a file of that name put -- before it")
}
