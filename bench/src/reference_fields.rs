//! A reference text in plain Rust by its fields: these are printed, and labels are remembered, by the
//! standard library.

use crate::record::TAGS;
use crate::reference::{Row, Way, fill};
use std::collections::HashSet;
use std::fmt::{Result, Write};

#[derive(Default)]
pub struct Fields<'a> {
    labels: HashSet<&'a [u8]>,
}

impl<'a> Way<'a> for Fields<'a> {
    fn remember(&mut self, label: &'a [u8]) -> bool {
        self.labels.insert(label)
    }

    fn print<'r>(
        codes: &[u8],
        rows: impl Iterator<Item = Row<'r>>,
        buffer: &mut [u8],
    ) -> Option<usize> {
        let mut text = String::new();
        add_heading(&mut text, codes).expect("a string takes every text");
        for row in rows {
            add_row(&mut text, row).expect("a string takes every text");
        }
        fill(buffer, text.as_bytes())
    }
}

fn add_heading(text: &mut String, codes: &[u8]) -> Result {
    write!(text, "REF,{}", codes.len())?;
    for code in codes {
        write!(text, ",{}", TAGS[usize::from(*code) - 1])?;
    }
    writeln!(text)
}

fn add_row(text: &mut String, (label, values): Row<'_>) -> Result {
    text.push_str(std::str::from_utf8(label).expect("a label in form"));
    for value in values {
        write!(text, ",{value}")?;
    }
    writeln!(text)
}
