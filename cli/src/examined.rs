//! The texts of a command through the library's calls: which text is refused and why, or what they say.

use crate::failure::Failure;
use crate::texts::Text;
use cundarivo::{CHANNELS, Envelope, Figures, ROWS, Refusal};

/// The refusal of an empty or too long text.
pub const NO_TEXT: u32 = 1;
/// The refusal of alert settings, which names no line.
const ALERT_SETTINGS: Refusal = Refusal {
    number: 14,
    line: 0,
};
/// The refusal of a record that does not agree with the rows.
pub const DISAGREES: u32 = 12;

/// Which text of a command.
#[derive(Clone, Copy, Debug, PartialEq, Eq)]
pub enum Kind {
    Reference,
    Record,
    Settings,
    Readings,
}

/// The first refused text of a command.
#[derive(Debug)]
pub struct Refused<'t> {
    pub kind: Kind,
    pub text: &'t Text,
    pub refusal: Refusal,
    /// The line that is told: the refusal's own, of settings the first one at fault.
    pub line: u32,
    /// The codes of the reference text's channels, where that text is accepted.
    pub codes: Vec<u8>,
    /// Whether it is a record that agrees with the rows where each value below detection counts as 0.
    pub agrees_with_zeros: bool,
}

impl Refused<'_> {
    /// What a program prints of it.
    pub fn answer(&self) -> String {
        printed(self.refusal)
    }
}

/// What a program prints of a refused text.
fn printed(refusal: Refusal) -> String {
    format!("NO,{},{}\n", refusal.number, refusal.line)
}

/// An accepted reference text.
#[derive(Debug)]
pub struct Reference<'t> {
    pub text: &'t Text,
    pub m: usize,
    pub n: usize,
    /// The m·n values as they read, row by row.
    pub table: Vec<i32>,
    /// The n codes of the channels' types.
    pub codes: Vec<u8>,
}

impl<'t> Reference<'t> {
    pub fn read(text: &'t Text) -> Result<Reference<'t>, Refused<'t>> {
        let (mut table, mut codes) = (vec![0; ROWS * CHANNELS], vec![0; CHANNELS]);
        match cundarivo::read_reference(&text.bytes, &mut table, &mut codes) {
            Ok(counts) => {
                table.truncate(counts.m * counts.n);
                codes.truncate(counts.n);
                Ok(Reference {
                    text,
                    m: counts.m,
                    n: counts.n,
                    table,
                    codes,
                })
            }
            Err(refusal) => Err(Refused {
                kind: Kind::Reference,
                text,
                refusal,
                line: refusal.line,
                codes: Vec::new(),
                agrees_with_zeros: false,
            }),
        }
    }

    /// The values of a row, counted from 0.
    pub fn row(&self, index: usize) -> &[i32] {
        &self.table[index * self.n..(index + 1) * self.n]
    }

    /// The label of a row, counted from 0.
    pub fn label(&self, index: usize) -> &'t [u8] {
        cundarivo::label(&self.text.bytes, index + 1)
    }

    /// The values of a row that are written as below detection: channel and field of each.
    pub fn below_detection(&self, index: usize) -> Vec<(usize, &'t [u8])> {
        let line = self.text.lines().nth(index + 1).unwrap_or_default();
        let fields = line.split(|&byte| byte == b',').skip(1);
        let marked = fields.enumerate();
        marked
            .filter(|(_, field)| field.starts_with(b"<"))
            .collect()
    }

    /// The envelope of a record that agrees with the rows.
    pub fn record(&self, text: &'t Text) -> Result<Envelope, Refused<'t>> {
        self.read_record(&self.table, text)
            .map_err(|refusal| Refused {
                agrees_with_zeros: refusal.number == DISAGREES && self.agrees_with_zeros(text),
                ..self.refused(Kind::Record, text, refusal)
            })
    }

    fn read_record(&self, table: &[i32], text: &Text) -> Result<Envelope, Refusal> {
        cundarivo::read_record(table, self.m, self.n, &self.codes, &text.bytes)
    }

    /// Whether a record agrees with the rows of the text with 0 in the place of each value below detection.
    fn agrees_with_zeros(&self, record: &Text) -> bool {
        let mut table = vec![0; self.table.len()];
        let mut codes = vec![0; self.codes.len()];
        let zeros = with_zeros(&self.text.bytes);
        let read = cundarivo::read_reference(&zeros, &mut table, &mut codes);
        read.is_ok() && self.read_record(&table, record).is_ok()
    }

    /// Whether the readings together are a text: judged as one reading they are refused by 1 where they are
    /// none. What is asked of each of them by itself is no part of it.
    pub fn readings(&self, figures: &Figures, text: &'t Text) -> Result<(), Refused<'t>> {
        match cundarivo::judge(figures, &text.bytes) {
            Err(refusal) if refusal.number == NO_TEXT => {
                Err(self.refused(Kind::Readings, text, refusal))
            }
            _ => Ok(()),
        }
    }

    /// Whether settings are a settings text, which only the program reads: `answer` is what it prints of
    /// them, and `try_settings` gives what it prints of other settings, beside the command's other texts, of
    /// which reference text and record are accepted. The line at fault is the last of the fewest first lines that are refused, at most the one
    /// behind the last setting that there can be.
    pub fn settings(
        &self,
        text: &'t Text,
        answer: &[u8],
        try_settings: impl Fn(&[u8]) -> Vec<u8>,
    ) -> Result<(), Refused<'t>> {
        let refused = printed(ALERT_SETTINGS);
        if answer != refused.as_bytes() {
            return Ok(());
        }
        let is_refused = |settings: &[u8]| try_settings(settings) == refused.as_bytes();
        let mut starts = (1..).zip(starts(&text.bytes));
        let at_fault = starts.find(|(_, start)| is_refused(start));
        Err(Refused {
            line: at_fault.map_or(0, |(line, _)| line),
            ..self.refused(Kind::Settings, text, ALERT_SETTINGS)
        })
    }

    fn refused(&self, kind: Kind, text: &'t Text, refusal: Refusal) -> Refused<'t> {
        Refused {
            kind,
            text,
            refusal,
            line: refusal.line,
            codes: self.codes.clone(),
            agrees_with_zeros: false,
        }
    }
}

/// A reference text with 0 in the place of each value below detection.
fn with_zeros(text: &[u8]) -> Vec<u8> {
    let mut zeros = Vec::with_capacity(text.len());
    for part in text.split_inclusive(|byte| matches!(byte, b',' | b'\n')) {
        match part {
            [b'<', .., end] => zeros.extend([b'0', *end]),
            _ => zeros.extend(part),
        }
    }
    zeros
}

/// The first line of a text, the first two, and so on, each with its byte 10 where it has one.
fn starts(text: &[u8]) -> impl Iterator<Item = &[u8]> {
    let lines = text.split_inclusive(|&byte| byte == b'\n');
    lines.scan(0, |end, line| {
        *end += line.len();
        Some(&text[..*end])
    })
}

/// Holds a program's whole output against the refusal of its texts that their own calls give.
pub fn require_answer(refused: &Refused<'_>, output: &[u8]) -> Result<(), Failure> {
    match output == refused.answer().as_bytes() {
        true => Ok(()),
        false => Err(Failure::contradiction(&format!(
            "{} is refused by {}, and the program answers otherwise",
            refused.text.told, refused.refusal.number
        ))),
    }
}
