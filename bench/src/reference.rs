//! Reference texts written in plain Rust: the tests before the text, and the program `plain`, which
//! reads a text and prints it. Labels are remembered and rows are printed in two ways, by
//! `reference_fields` and by `reference_pass`.

use crate::plain::Table;
use crate::reader::{self, LABEL_REPEATED, LINE_FORM, Refusal, VALUE_RANGE, is_label};
use crate::record::{CHANNELS, OUTSIDE_LIMITS, Rows, TOO_SHORT};
use crate::texts::TAGS;

/// The line of the first row.
const FIRST_ROW: u32 = 2;

/// The label and the values of a row.
pub type Row<'a> = (&'a [u8], &'a [i32]);

/// A way to remember labels and to print rows.
pub trait Way<'a>: Default {
    /// Remembers a label in form; false where it has come before.
    fn remember(&mut self, label: &'a [u8]) -> bool;

    /// Prints a text into the first places of a lent buffer and no other. Gives its length, or nothing
    /// where it has more bytes than the buffer.
    fn print<'r>(
        codes: &[u8],
        rows: impl DoubleEndedIterator<Item = Row<'r>> + Clone,
        buffer: &mut [u8],
    ) -> Option<usize>;
}

/// Rows with the labels that are lent for them.
pub struct Labelled<'a> {
    pub rows: Rows<'a>,
    pub labels: &'a [u8],
    pub ends: &'a [usize],
}

impl<'a> Labelled<'a> {
    /// The table and the first n codes.
    fn within_limits(&self) -> Result<(Table<'a>, &'a [u8]), Refusal> {
        let (table, codes) = self.rows.within_limits()?;
        let whole = self.ends.last() == Some(&self.labels.len());
        match self.ends.len() == table.m && self.ends.is_sorted() && whole {
            true => Ok((table, codes)),
            false => Err(OUTSIDE_LIMITS),
        }
    }

    /// The label of a row, where the ends are within the limits.
    fn label(&self, row: usize) -> &'a [u8] {
        let start = row.checked_sub(1).map_or(0, |before| self.ends[before]);
        &self.labels[start..self.ends[row]]
    }
}

/// Writes the text of rows and labels into a lent buffer as the library does. Gives its length.
pub fn write<'a, W: Way<'a>>(labelled: &Labelled<'a>, buffer: &mut [u8]) -> Result<usize, Refusal> {
    let (table, codes) = labelled.within_limits()?;
    let values = labelled.rows.places.chunks_exact(table.n);
    let rows = (0..table.m).map(|row| labelled.label(row)).zip(values);
    let mut ranges = [(0, 0); CHANNELS];
    for (range, code) in ranges.iter_mut().zip(codes) {
        let (_, low, high) = TAGS[usize::from(*code) - 1];
        *range = (low, high);
    }
    let mut way = W::default();
    for (line, (label, values)) in (FIRST_ROW..).zip(rows.clone()) {
        test_row(label, values, &ranges).map_err(|number| (number, line))?;
        if !way.remember(label) {
            return Err((LABEL_REPEATED, line));
        }
    }
    W::print(codes, rows, buffer).ok_or(TOO_SHORT)
}

fn test_row(label: &[u8], values: &[i32], ranges: &[(i32, i32); CHANNELS]) -> Result<(), u32> {
    if !is_label(label) {
        return Err(LINE_FORM);
    }
    let within = |(value, (low, high)): (&i32, &(i32, i32))| low <= value && value <= high;
    match values.iter().zip(ranges).all(within) {
        true => Ok(()),
        false => Err(VALUE_RANGE),
    }
}

/// Puts what the program `plain` prints into a lent output; gives its length. What is read is within
/// the limits, and no row is tested twice.
pub fn plain<'a, W: Way<'a>>(text: &[u8], output: &mut [u8]) -> Result<usize, Refusal> {
    let printed = match reader::parse(text) {
        Ok(reference) => {
            let (codes, n) = reference.codes();
            let values = reference.table.chunks_exact(n);
            let rows = reference.labels.iter().copied().zip(values);
            W::print(&codes[..n], rows, output)
        }
        Err((number, line)) => fill(output, format!("NO,{number},{line}\n").as_bytes()),
    };
    printed.ok_or(TOO_SHORT)
}

/// Fills the first places of a buffer, where it has as many; gives how many.
pub fn fill(buffer: &mut [u8], bytes: &[u8]) -> Option<usize> {
    let places = buffer.get_mut(..bytes.len())?;
    places.copy_from_slice(bytes);
    Some(bytes.len())
}
