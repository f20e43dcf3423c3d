//! What became of each reference text, a line each on standard output, and of the run.

use crate::examined::Reference;
use crate::failure::{self, Failure};
use crate::status::Status;
use crate::texts::Text;
use crate::{output, shown, words};
use cundarivo::Refusal;
use std::ffi::{CString, OsStr};
use std::io;
use std::os::unix::ffi::OsStrExt;

/// Lines are written together once they have as many bytes.
const WRITTEN_TOGETHER: usize = 65_536;

/// Of how many refused texts the reason is told in words.
pub const TEXTS_IN_WORDS: usize = 20;

pub enum Outcome {
    /// The record is in its place; the new figures and the old ones.
    Drawn(String),
    /// The record that is there is the one that was drawn.
    Unchanged,
    Refused(Refusal),
    /// The reason.
    Failed(String),
}

/// What became of a folder's reference texts.
pub struct Drawn {
    /// In the order of the names.
    pub outcomes: Vec<Outcome>,
    /// The first refused texts.
    pub refused: Vec<Text>,
}

impl Drawn {
    /// A record that was put in place is drawn only where the folder was flushed. An unchanged one may be that of
    /// a run that could not flush it, or was killed before: it has its name only where the folder is flushed.
    pub fn conclude(&mut self, flushed: io::Result<()>) {
        let Err(error) = flushed else {
            return;
        };
        let reason = format!("the folder cannot be flushed: {}", failure::reason(&error));
        for outcome in &mut self.outcomes {
            if let Outcome::Drawn(_) | Outcome::Unchanged = outcome {
                *outcome = Outcome::Failed(reason.clone());
            }
        }
    }
}

#[derive(Default)]
pub struct Report {
    several: bool,
    folders: usize,
    failed_folders: usize,
    drawn: usize,
    unchanged: usize,
    refused: usize,
    failed: usize,
    /// Of how many refused texts the reason was told in words.
    in_words: usize,
}

impl Report {
    /// Where there are several folders, the name of a file is told with its folder's.
    pub fn new(several: bool) -> Report {
        Report {
            several,
            ..Report::default()
        }
    }

    /// What is told before the names of a folder's files and a slash.
    pub fn place<'p>(&self, path: &'p OsStr) -> Option<&'p [u8]> {
        let mut path = path.as_bytes();
        while let Some(before) = path.strip_suffix(b"/") {
            path = before;
        }
        self.several.then_some(path)
    }

    /// Tells what became of a folder's reference texts.
    pub fn add(&mut self, path: &OsStr, names: &[CString], drawn: &Drawn) -> Result<(), Failure> {
        self.folders += 1;
        let place = self.place(path).map(|place| escaped(place) + "/");
        let place = place.unwrap_or_default();
        let mut lines = String::new();
        for (name, outcome) in names.iter().zip(&drawn.outcomes) {
            let name = escaped(name.to_bytes());
            lines += &self.line(&format!("{place}{name}"), outcome);
            if lines.len() >= WRITTEN_TOGETHER {
                output::print(lines.as_bytes())?;
                lines.clear();
            }
        }
        output::print(lines.as_bytes())?;
        for text in &drawn.refused {
            self.tell_refused(text);
        }
        Ok(())
    }

    /// Tells in words why a text was refused, where not enough of them have been told.
    fn tell_refused(&mut self, text: &Text) {
        if let (true, Err(refused)) = (self.in_words < TEXTS_IN_WORDS, Reference::read(text)) {
            words::tell_refused(&refused);
            self.in_words += 1;
        }
    }

    fn line(&mut self, name: &str, outcome: &Outcome) -> String {
        match outcome {
            Outcome::Drawn(change) => {
                self.drawn += 1;
                format!("drawn {name}: {change}\n")
            }
            Outcome::Unchanged => {
                self.unchanged += 1;
                format!("unchanged {name}\n")
            }
            Outcome::Refused(refusal) => {
                self.refused += 1;
                format!("refused {name}: NO,{},{}\n", refusal.number, refusal.line)
            }
            Outcome::Failed(reason) => {
                self.failed += 1;
                format!("failed {name}: {reason}\n")
            }
        }
    }

    pub fn folder_failed(&mut self) {
        self.folders += 1;
        self.failed_folders += 1;
    }

    /// Prints the counts, and gives the status.
    pub fn end(&self) -> Result<Status, Failure> {
        if self.folders > self.failed_folders {
            output::print(self.counts().as_bytes())?;
        }
        if self.refused > self.in_words {
            let more = self.refused - self.in_words;
            failure::tell(&format!("refused texts besides: {more}"));
        }
        if self.failed > 0 {
            failure::tell(&format!(
                "files that failed: {}; standard output says why",
                self.failed
            ));
        }
        Ok(match (self.failed + self.failed_folders, self.refused) {
            (0, 0) => Status::Done,
            (0, _) => Status::Refused,
            _ => Status::Failed,
        })
    }

    fn counts(&self) -> String {
        let files = format!(
            "{} drawn, {} unchanged, {} refused, {} failed",
            self.drawn, self.unchanged, self.refused, self.failed
        );
        match self.failed_folders {
            0 => files + "\n",
            failed => format!("{files}; {failed} of {} folders failed\n", self.folders),
        }
    }
}

/// A name without quotes, in which no blank is, with `...` behind it where it has more bytes.
fn escaped(name: &[u8]) -> String {
    let more = if name.len() > shown::LIMIT { "..." } else { "" };
    shown::escaped(name) + more
}

/// Tells of records that runs that were ended left waiting.
pub fn tell_leftovers(path: &OsStr, count: usize) {
    let name = shown::name(path);
    failure::tell(&format!(
        "the folder {name} has names .envelope-* that other runs left: {count}; remove them while no redraw \
         runs"
    ));
}
