//! The form of a plain number: what keeps a field from being one, as a person would name it.

use super::field;
use super::line::{self, Blank, Place};
use std::ops::RangeInclusive;

#[derive(Clone, Copy, Debug, PartialEq, Eq)]
pub enum Fault {
    Empty,
    Blank(Blank),
    /// The name of a blank between digits.
    Separator(&'static str),
    /// The name of a sign that is no hyphen.
    Minus(&'static str),
    Plus,
    Point,
    MinusZero,
    LeadingZeros,
    /// No digit is in the field.
    NoDigit,
    Other,
}

const MINUSES: [(&[u8], &str); 3] = [
    (b"\xe2\x88\x92", "the minus sign U+2212"),
    (b"\xe2\x80\x93", "the dash U+2013"),
    (b"\xe2\x80\x94", "the dash U+2014"),
];

/// None where the field is a plain number, of any length.
pub fn fault(field: &[u8]) -> Option<Fault> {
    let magnitude = field.strip_prefix(b"-").unwrap_or(field);
    match (digits(magnitude), magnitude) {
        (true, b"0") if magnitude.len() < field.len() => Some(Fault::MinusZero),
        (true, b"0") => None,
        (true, [b'0', ..]) => Some(Fault::LeadingZeros),
        (true, _) => None,
        (false, _) => Some(named(field)),
    }
}

pub fn digits(field: &[u8]) -> bool {
    !field.is_empty() && field.iter().all(u8::is_ascii_digit)
}

fn named(field: &[u8]) -> Fault {
    let minus = MINUSES
        .iter()
        .find(|(sign, _)| field.starts_with(sign) && field.len() > sign.len());
    let blank = line::blank(field);
    match (field, minus, blank) {
        ([], _, _) => Fault::Empty,
        (_, _, Some(blank)) if blank.place == Place::Inside && separated(field) => {
            Fault::Separator(blank.name)
        }
        (_, _, Some(blank)) => Fault::Blank(blank),
        (_, Some((_, name)), _) => Fault::Minus(name),
        ([b'+', ..], _, _) => Fault::Plus,
        _ if apart(field).is_some() => Fault::Point,
        _ if !field.iter().any(u8::is_ascii_digit) => Fault::NoDigit,
        _ => Fault::Other,
    }
}

/// Whether the blanks of a field all stand between its digits, where there is none at its start and end.
fn separated(field: &[u8]) -> bool {
    let magnitude = field.strip_prefix(b"-").unwrap_or(field);
    magnitude.first().is_some_and(u8::is_ascii_digit) && digits(&line::without_blanks(magnitude))
}

/// Sign, digits before and digits behind the point of a decimal number.
pub fn apart(field: &[u8]) -> Option<(bool, &[u8], &[u8])> {
    let magnitude = field.strip_prefix(b"-").unwrap_or(field);
    let point = magnitude.iter().position(|&byte| byte == b'.')?;
    let (before, behind) = (&magnitude[..point], &magnitude[point + 1..]);
    let form = digits(before) && digits(behind);
    form.then_some((magnitude.len() < field.len(), before, behind))
}

/// A whole number of few digits, leading zeros allowed.
pub fn small(field: &[u8]) -> Option<i64> {
    let magnitude = field.strip_prefix(b"-").unwrap_or(field);
    let few = digits(magnitude) && magnitude.len() <= 10;
    let text = std::str::from_utf8(field).ok().filter(|_| few)?;
    text.parse().ok()
}

/// What is told of a field that is no plain number within these limits; `name` says what it is.
pub fn outside(name: &str, text: &[u8], limits: RangeInclusive<i64>) -> Option<String> {
    let shown = field(text);
    let (low, high) = (limits.start(), limits.end());
    match (fault(text), small(text)) {
        (Some(fault), _) => Some(format!("{name} is {shown}, which {}", fault.words())),
        (None, Some(number)) if limits.contains(&number) => None,
        (None, _) => Some(format!("{name} is {shown}: it is {low} to {high}")),
    }
}

impl Fault {
    /// As it follows the field that has it.
    pub fn words(self) -> String {
        match self {
            Fault::Empty => "is empty".to_string(),
            Fault::Separator(name) => {
                format!("has {name} between its digits: a number has no separators")
            }
            Fault::Blank(blank) => format!("{}: there are no blanks in a line", blank.words()),
            Fault::Minus(name) => format!("has {name}: a minus is written - (byte 45)"),
            Fault::Plus => "has a plus sign: a number above 0 has no sign".to_string(),
            Fault::Point => "has a decimal point: whole numbers are asked for".to_string(),
            Fault::MinusZero => "is a zero with a minus: zero is written 0".to_string(),
            Fault::LeadingZeros => "has leading zeros: it is written without them".to_string(),
            Fault::NoDigit => "is no number".to_string(),
            Fault::Other => "is not a whole number".to_string(),
        }
    }
}

#[cfg(test)]
mod tests {
    use super::{Fault, apart, fault};
    use crate::types::TYPES;
    use crate::words::value;

    /// The blank of `- 5` stands between no digits.
    #[test]
    fn a_blank_behind_a_minus_is_no_separator() {
        let words = fault(b"- 5").map(Fault::words);
        let expected = "has a blank in it: there are no blanks in a line";
        assert_eq!(words.as_deref(), Some(expected));
    }

    #[test]
    fn faults_are_named() {
        let faults = [
            (&b"5"[..], None),
            (b"0", None),
            (b"-12", None),
            (b"-0", Some(Fault::MinusZero)),
            (b"065", Some(Fault::LeadingZeros)),
            (b"-00", Some(Fault::LeadingZeros)),
            (b"", Some(Fault::Empty)),
            (b"+7", Some(Fault::Plus)),
            (b"22.8", Some(Fault::Point)),
            (b"-.5", Some(Fault::Other)),
            (b"1 473", Some(Fault::Separator("a blank"))),
            (
                b"1\xe2\x80\xaf473",
                Some(Fault::Separator("a narrow space (U+202F)")),
            ),
            (b"-1 473", Some(Fault::Separator("a blank"))),
            (b"n/a", Some(Fault::NoDigit)),
            (b"-", Some(Fault::NoDigit)),
            (b"5ppb", Some(Fault::Other)),
            (
                b"\xe2\x88\x9220",
                Some(Fault::Minus("the minus sign U+2212")),
            ),
        ];
        for (field, expected) in faults {
            assert_eq!(fault(field), expected, "{field:?}");
        }
        assert_eq!(apart(b"-2.05"), Some((true, &b"2"[..], &b"05"[..])));
    }

    /// A field of up to four of these bytes has a fault exactly where the library refuses it by 3.
    #[test]
    fn a_fault_is_what_the_library_refuses() {
        let bytes = b"019-+. ";
        let mut compared = 0;
        for code in 0..(bytes.len() + 1).pow(4) {
            let digits = [code, code / 8, code / 64, code / 512].map(|digit| digit % 8);
            let field: Vec<u8> = digits
                .iter()
                .filter_map(|&digit| bytes.get(digit).copied())
                .collect();
            let refused = value::refusal(&TYPES[7], &field) == 3;
            assert_eq!(fault(&field).is_some(), refused, "{field:?}");
            compared += 1;
        }
        assert_eq!(compared, 4_096);
    }
}
