//! The writer of reference texts by the rules of document 02, job 1: every line is printed from formatted
//! numbers, and a row is turned back as the reader turns its line back.

use crate::records::{self, TypedRows};
use crate::reference::{self, LABEL_REPEATED, Reference};
use crate::rules::{OUTSIDE_LIMITS, Refusal};
use std::collections::HashSet;

/// No text of m rows has more bytes than these for its heading and for each of its rows.
pub const HEADING_BYTES: usize = 38;
pub const ROW_BYTES: usize = 61;

/// Labels as they are lent to a call: their bytes one after another, and where each of them ends.
#[derive(Clone, Debug, Default, PartialEq, Eq)]
pub struct LentLabels {
    pub bytes: Vec<u8>,
    pub ends: Vec<usize>,
}

impl LentLabels {
    pub fn of<Label: AsRef<[u8]>>(labels: &[Label]) -> LentLabels {
        let mut lent = LentLabels::default();
        for label in labels {
            lent.bytes.extend(label.as_ref());
            lent.ends.push(lent.bytes.len());
        }
        lent
    }

    /// The labels, where no end is before the one before it and the last is that of the bytes.
    pub fn parts(&self) -> Option<Vec<&[u8]>> {
        let starts = [0].into_iter().chain(self.ends.iter().copied());
        let parts = starts.zip(&self.ends);
        let parts: Option<Vec<&[u8]>> = parts
            .map(|(start, &end)| self.bytes.get(start..end))
            .collect();
        let last = self.ends.last().copied().unwrap_or(0);
        parts.filter(|_| last == self.bytes.len())
    }
}

/// What is lent to the writer: rows with the codes of their channels' types, and their labels.
#[derive(Clone, Debug, PartialEq, Eq)]
pub struct LabelledRows {
    pub rows: TypedRows,
    pub labels: LentLabels,
}

impl LabelledRows {
    /// The rows, types and labels of a text that was accepted.
    pub fn read(reference: &Reference, text: &[u8]) -> LabelledRows {
        let labels: Vec<&[u8]> = reference
            .rows
            .iter()
            .map(|row| row.label.of(text))
            .collect();
        LabelledRows {
            rows: TypedRows::read(reference),
            labels: LentLabels::of(&labels),
        }
    }
}

/// The reference text of labelled rows; refusal 8, then row by row 3, 4, 5.
pub fn write(table: &LabelledRows) -> Result<Vec<u8>, Refusal> {
    let LabelledRows { rows, labels } = table;
    let types = rows.within_limits()?;
    let labels = labels.parts().ok_or(OUTSIDE_LIMITS)?;
    if labels.len() != rows.set.m {
        return Err(OUTSIDE_LIMITS);
    }
    let mut text = reference::print_heading("REF", &types).into_bytes();
    let mut earlier = HashSet::new();
    let values = rows.set.places.chunks(rows.set.n);
    for ((&label, values), line) in labels.iter().zip(values).zip(2..) {
        let refused = |number| Refusal { number, line };
        let printed = print_row(label, values);
        reference::read_row(&printed, &types).map_err(refused)?;
        if !earlier.insert(label) {
            return Err(refused(LABEL_REPEATED));
        }
        text.extend(printed);
    }
    Ok(text)
}

/// Writes a reference text into a lent buffer and gives its length; refusal 13 comes last.
pub fn write_into(table: &LabelledRows, buffer: &mut [u8]) -> Result<usize, Refusal> {
    records::place_text(&write(table)?, buffer)
}

/// A row's line with its byte 10, whether it is within the rules or not.
fn print_row(label: &[u8], values: &[i32]) -> Vec<u8> {
    let values: String = values.iter().map(|value| format!(",{value}")).collect();
    [label, values.as_bytes(), b"\n"].concat()
}
