//! What is to become of a reference text: nothing, a refusal, or a new record.

use super::change::{self, Old};
use super::folder::Folder;
use super::text;
use super::waiting::{Waiting, WaitingNames};
use crate::examined::{Reference, require_answer};
use crate::failure::{self, Failure};
use crate::shown;
use crate::texts::{Text, read_start};
use cundarivo::{Refusal, programs};
use std::ffi::{CStr, CString};
use std::io;

/// Where the texts of a run are, and where their records go.
pub struct Place<'f> {
    pub folder: &'f Folder,
    pub waiting_names: WaitingNames,
    /// What is told before the name of a file, where several folders are redrawn.
    pub told: Option<&'f [u8]>,
}

pub enum Drawing<'f> {
    Unchanged,
    Refused(Text, Refusal),
    New(NewRecord<'f>),
}

/// A record that is written and has not got its name.
pub struct NewRecord<'f> {
    pub waiting: Waiting<'f>,
    pub name: CString,
    /// The new figures and the old ones, as they are told.
    pub change: String,
}

impl<'f> Place<'f> {
    /// Draws the reference text of a name; a failure is its reason.
    pub fn draw(&self, name: &CStr) -> Result<Drawing<'f>, String> {
        let bytes = text::read(self.folder, name).map_err(|error| failure::reason(&error))?;
        let text = Text {
            told: self.shown(name),
            bytes,
        };
        let answer = programs::draw(&text.bytes);
        match Reference::read(&text) {
            Ok(reference) => self.compare(&reference, answer, record_name(name)),
            Err(refused) => {
                require_answer(&refused, &answer).map_err(told)?;
                let refusal = refused.refusal;
                Ok(Drawing::Refused(text, refusal))
            }
        }
    }

    /// Writes the record that was drawn, unless it is there.
    fn compare(
        &self,
        reference: &Reference<'_>,
        record: Vec<u8>,
        name: CString,
    ) -> Result<Drawing<'f>, String> {
        if !record.starts_with(b"ENV,") {
            let line = "the text is accepted, and the program answers otherwise";
            return Err(told(Failure::contradiction(line)));
        }
        let of_record = |error| of_record(&name, &error);
        let old = self.old_record(&name, record.len()).map_err(of_record)?;
        if old.as_ref().is_some_and(|old| old.bytes == record) {
            return Ok(Drawing::Unchanged);
        }
        let change = change::tell(reference, &record, old.as_ref())?;
        let replaced = old.as_ref().map(|old| &old.status);
        let waiting = Waiting::write(self.folder, &self.waiting_names, &record, replaced);
        Ok(Drawing::New(NewRecord {
            waiting: waiting.map_err(of_record)?,
            name,
            change,
        }))
    }

    /// What is there under a record's name, at most one byte more than the new record has.
    fn old_record(&self, name: &CStr, length: usize) -> io::Result<Option<Old>> {
        let opened = match self.folder.open_regular(name) {
            Err(error) if error.kind() == io::ErrorKind::NotFound => return Ok(None),
            opened => opened?,
        };
        let bytes = read_start(&opened.file, length + 1)?;
        Ok(Some(Old {
            whole: bytes.len() <= length,
            bytes,
            status: opened.status,
        }))
    }

    /// A file's name as it is told, with that of its folder where there are several.
    fn shown(&self, name: &CStr) -> String {
        let name = shown::quoted(name.to_bytes());
        match self.told {
            Some(folder) => format!("{name} in {}", shown::quoted(folder)),
            None => name,
        }
    }
}

/// `.env` in the place of `.ref`.
fn record_name(reference: &CStr) -> CString {
    let bytes = reference.to_bytes();
    let stem = bytes.strip_suffix(b".ref").unwrap_or(bytes);
    CString::new([stem, b".env"].concat()).expect("a listed name has no byte 0")
}

/// The reason of a failure that is the record's.
pub fn of_record(name: &CStr, error: &io::Error) -> String {
    let name = shown::quoted(name.to_bytes());
    format!("{name}: {}", failure::reason(error))
}

fn told(failure: Failure) -> String {
    failure.line().to_string()
}
