//! Faults that leave a record out of form, each put into a line that is then the first faulty one.

use crate::faults;
use crate::random::Random;
use crate::record_texts::{CENTRE, FIGURES, HEADING, RecordDraft, WEIGHTS};
use crate::records::DIGIT_LIMIT;
use crate::rules::{BUDGET_LIMIT, ROW_LIMIT};
use std::ops::Range;

/// A fault that leaves a text out of form.
#[derive(Clone, Copy, Debug, PartialEq, Eq)]
pub enum FormFault {
    Heading,
    /// Another word at the start of a line.
    LineWord,
    NumberForm,
    /// A number in form but for its 20 digits or more.
    TwentyDigits,
    FieldAdded,
    FieldDropped,
    LetterForm,
    /// Moves below 0 or above 1,000,000.
    MovesRange,
    /// A row below 1 or above 256.
    RowRange,
    /// A row at or below the one before it.
    RowNotRising,
    /// A weight of 0 or less.
    WeightRange,
    /// Byte 13 before byte 10.
    CarriageReturn,
    /// A line without its bytes.
    LineEmptied,
    /// An empty line before another, or behind the last.
    EmptyLineAdded,
    /// The text ends in a line, before its byte 10.
    NoLineEnd,
    /// One of the first three lines is not there.
    LineDropped,
    /// The text ends behind one of the first three lines.
    LinesMissing,
    /// One of the first three lines and the one behind it.
    LinesExchanged,
    /// A line of the record again, behind the last.
    LineBehind,
    /// Bytes without byte 10 behind the last line.
    BytesBehind,
}

pub const FORM_FAULTS: [FormFault; 20] = [
    FormFault::Heading,
    FormFault::LineWord,
    FormFault::NumberForm,
    FormFault::TwentyDigits,
    FormFault::FieldAdded,
    FormFault::FieldDropped,
    FormFault::LetterForm,
    FormFault::MovesRange,
    FormFault::RowRange,
    FormFault::RowNotRising,
    FormFault::WeightRange,
    FormFault::CarriageReturn,
    FormFault::LineEmptied,
    FormFault::EmptyLineAdded,
    FormFault::NoLineEnd,
    FormFault::LineDropped,
    FormFault::LinesMissing,
    FormFault::LinesExchanged,
    FormFault::LineBehind,
    FormFault::BytesBehind,
];

/// Words that no heading of a record begins with.
const NO_WORDS: [&str; 8] = [
    "",
    "env",
    "EN",
    "ENVS",
    "ENV ",
    " ENV",
    "REF",
    "\u{feff}ENV",
];

/// Words that no other line of a record begins with.
const NO_LINE_WORDS: [&str; 10] = ["", "c", "r", "w", "CC", "RR", "W ", " W", "ENV", "0"];

/// Fields that are no plain number.
pub const NO_NUMBERS: [&str; 18] = [
    "", "-", "-0", "00", "05", "-05", "+1", "--1", "1-", " 1", "1 ", "<1", "1.0", "0x1", "1e3",
    "A", "\0", "1\0",
];

const NO_LETTERS: [&str; 9] = ["", "s", "b", "SB", "SS", "S ", "C", "0", "1"];

impl FormFault {
    /// The lines of a record that it can be put into, counted from 0: it makes that line the first
    /// faulty one.
    pub fn lines(self, draft: &RecordDraft) -> Range<usize> {
        let count = draft.lines.len();
        match self {
            FormFault::Heading => HEADING..CENTRE,
            FormFault::LineWord | FormFault::NumberForm | FormFault::TwentyDigits => CENTRE..count,
            FormFault::LetterForm | FormFault::MovesRange => FIGURES..WEIGHTS,
            FormFault::RowRange | FormFault::WeightRange => WEIGHTS..count,
            // Past the last line, the last one again.
            FormFault::RowNotRising => WEIGHTS + 1..count + 1,
            FormFault::EmptyLineAdded => HEADING..count + 1,
            FormFault::LineDropped | FormFault::LinesExchanged => HEADING..WEIGHTS,
            FormFault::LinesMissing => CENTRE..WEIGHTS + 1,
            FormFault::LineBehind | FormFault::BytesBehind => count..count + 1,
            _ => HEADING..count,
        }
    }
}

/// A line that a fault fits.
pub fn line_for(random: &mut Random, draft: &RecordDraft, fault: FormFault) -> usize {
    let lines = fault.lines(draft);
    lines.start + random.index(lines.len())
}

/// Puts a fault into a record within the rules, at one of the lines that it fits.
pub fn put(random: &mut Random, draft: &mut RecordDraft, fault: FormFault, line: usize) {
    let lines = &mut draft.lines;
    match fault {
        FormFault::RowNotRising if line == lines.len() => lines.push(lines[line - 1].clone()),
        FormFault::RowNotRising => {
            let above = draft.number(line - 1, 1) as u64;
            draft.set_number(line, 1, 1 + i128::from(random.below(above)));
        }
        FormFault::EmptyLineAdded => lines.insert(line, vec![Vec::new()]),
        FormFault::NoLineEnd => {
            lines.truncate(line + 1);
            draft.end.clear();
        }
        FormFault::LineDropped => drop(lines.remove(line)),
        FormFault::LinesMissing => {
            lines.truncate(line);
            draft.end = b"\n".to_vec();
        }
        // Where another fault has left no line behind this one, this one is missing too.
        FormFault::LinesExchanged if line + 1 == lines.len() => drop(lines.pop()),
        FormFault::LinesExchanged => lines.swap(line, line + 1),
        FormFault::LineBehind => lines.push(lines[random.index(line)].clone()),
        FormFault::BytesBehind => {
            let bytes = [&b"\0"[..], b" ", b"0", b"\r", b"W", b"W,256,1", b","];
            draft.end.extend(random.pick(&bytes));
        }
        _ => put_in_line(random, draft, fault, line),
    }
}

/// A fault of one line's fields.
fn put_in_line(random: &mut Random, draft: &mut RecordDraft, fault: FormFault, line: usize) {
    let numbers: Vec<usize> = draft.number_fields(line).collect();
    let number = random.pick(&numbers);
    let fields = &mut draft.lines[line];
    match fault {
        FormFault::Heading => faults::put_in_heading(random, fields, &NO_WORDS),
        FormFault::LineWord => fields[0] = random.pick(&NO_LINE_WORDS).into(),
        FormFault::NumberForm => fields[number] = random.pick(&NO_NUMBERS).into(),
        FormFault::TwentyDigits => fields[number] = twenty_digits(random),
        FormFault::FieldAdded => {
            let place = random.index(fields.len() + 1);
            fields.insert(place, random.pick(&["0", "", "1", "W"]).into());
        }
        FormFault::FieldDropped => drop(fields.remove(random.index(fields.len()))),
        FormFault::LetterForm => fields[4] = random.pick(&NO_LETTERS).into(),
        FormFault::MovesRange => fields[3] = outside(random, 0, BUDGET_LIMIT.into()),
        FormFault::RowRange => fields[1] = outside(random, 1, ROW_LIMIT as i128),
        FormFault::WeightRange => {
            fields[2] = random
                .pick(&["0", "-1", "-32768", "-65536", "-4294967296"])
                .into();
        }
        FormFault::CarriageReturn => fields.last_mut().expect("a field").push(b'\r'),
        _ => *fields = vec![Vec::new()],
    }
}

/// A number of 20 digits or more, the first of them above 0.
fn twenty_digits(random: &mut Random) -> Vec<u8> {
    let digits = DIGIT_LIMIT + 1 + random.pick(&[0, 0, 1, 19, 300]);
    digits_of(random, digits)
}

/// A number of so many digits, of either sign.
pub fn digits_of(random: &mut Random, digits: usize) -> Vec<u8> {
    let mut field = Vec::from(random.pick(&["", "-"]));
    field.push(random.between(b'1'.into(), b'9'.into()) as u8);
    field.extend((1..digits).map(|_| random.between(b'0'.into(), b'9'.into()) as u8));
    field
}

/// A number below the lowest or above the highest; some are within in 32 or 64 bits.
fn outside(random: &mut Random, lowest: i128, highest: i128) -> Vec<u8> {
    let within = 1 + i128::from(random.below(highest as u64));
    let numbers = [
        lowest - 1,
        -within,
        highest + 1,
        highest + 2,
        within + (1 << 32),
        i64::MAX.into(),
        9_999_999_999_999_999_999,
    ];
    random.pick(&numbers).to_string().into_bytes()
}

/// Stretches a text to a length, at the end of one of its lines. Gives that line, counted from 0,
/// which is then out of form.
pub fn stretch(random: &mut Random, draft: &mut RecordDraft, length: usize) -> usize {
    let more = length.saturating_sub(draft.bytes().len());
    let line = random.index(draft.lines.len());
    let field = draft.lines[line].last_mut().expect("a field");
    field.resize(field.len() + more, random.pick(b"07A-"));
    line
}
