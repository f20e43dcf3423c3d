//! The lines of a record, and a record that disagrees with its rows.

use super::line::{self, Line};
use super::{counted, field, heading, number};
use crate::examined::DISAGREES;
use crate::refusals;
use crate::types;
use cundarivo::{ROWS, Refusal};
use std::ops::RangeInclusive;

/// The most digits of a number.
const DIGITS: usize = 19;

/// What is said of a record that agrees with the rows where each value below detection counts as 0.
const AGREES_WITH_ZEROS: &str = "the record agrees with these rows where each value below detection \
     counts as 0, as in earlier records; such a value now counts as half its limit, rounded down: draw \
     the record again from this reference text";

/// `codes` are those of the reference text; `agrees_with_zeros` is that of `Refused`.
pub fn hint(text: &[u8], refusal: Refusal, codes: &[u8], agrees_with_zeros: bool) -> String {
    let heading = Line::numbered(text, 1);
    match refusal.number {
        11 => form(text, refusal.line),
        DISAGREES if agrees_with_zeros => AGREES_WITH_ZEROS.to_string(),
        DISAGREES => disagreement(heading, codes),
        number => refusals::remedy(number).to_string(),
    }
}

/// What stands in each place of a record.
fn asked(number: u32, n: usize) -> String {
    match number {
        1 => "line 1 is the heading: ENV, n and n tags".to_string(),
        2 => format!("line 2 is C and {}, the centre", counted(n, "number")),
        3 => "line 3 is R, squared radius, floor, moves and the letter S or B".to_string(),
        _ => format!(
            "each line from 4 on is W, a row of 1 to {ROWS} above the one before, and its weight"
        ),
    }
}

fn form(text: &[u8], place: u32) -> String {
    let n = Line::numbered(text, 1).map_or(0, |heading| heading::channels(heading).len());
    let asked = asked(place, n);
    let Some(line) = Line::numbered(text, place) else {
        return format!("the record ends before this line: {asked}");
    };
    if line.bytes.is_empty() {
        let more = if place > 4 {
            "nothing follows the last W line"
        } else {
            &asked
        };
        return format!("the line is empty: {more}");
    }
    if place == 1 {
        return heading::form(line, "ENV");
    }
    let fields = line.fields();
    let seen = line::saved_otherwise(line)
        .or_else(|| line::comment(line))
        .or_else(|| word(&fields, place))
        .or_else(|| count(&fields, place, n))
        .or_else(|| numbers(&fields, place))
        .or_else(|| limits(&fields, place))
        .or_else(|| rising(&fields, text, place))
        .or_else(|| line::no_end(line));
    match seen {
        Some(seen) => format!("{seen}; {asked}"),
        None => asked,
    }
}

fn word(fields: &[&[u8]], place: u32) -> Option<String> {
    let word = match place {
        2 => "C",
        3 => "R",
        _ => "W",
    };
    let first = fields[0];
    (first != word.as_bytes())
        .then(|| format!("the line starts with {} in place of {word}", field(first)))
}

fn count(fields: &[&[u8]], place: u32, n: usize) -> Option<String> {
    let wanted = match place {
        2 => n + 1,
        3 => 5,
        _ => 3,
    };
    let seen = counted(fields.len(), "field");
    (fields.len() != wanted).then(|| format!("the line has {seen} in place of {wanted}"))
}

/// The first number that is not in form; the last field of line 3 is a letter.
fn numbers(fields: &[&[u8]], place: u32) -> Option<String> {
    let numbers = match place {
        3 => &fields[1..4],
        _ => &fields[1..],
    };
    numbers.iter().find_map(|text| {
        let shown = field(text);
        let digits = text.iter().filter(|byte| byte.is_ascii_digit()).count();
        match number::fault(text) {
            Some(number::Fault::Empty) => Some("a field is empty".to_string()),
            Some(fault) => Some(format!("the field {shown} {}", fault.words())),
            None if digits > DIGITS => Some(format!(
                "a number has {digits} digits, and {DIGITS} are the most"
            )),
            None => None,
        }
    })
}

fn limits(fields: &[&[u8]], place: u32) -> Option<String> {
    let outside = |text: &[u8], limits: RangeInclusive<i64>| {
        !number::small(text).is_some_and(|number| limits.contains(&number))
    };
    match place {
        3 if outside(fields[3], 0..=1_000_000) => {
            let moves = field(fields[3]);
            Some(format!("the moves are {moves}, not 0 to 1,000,000"))
        }
        3 if fields[4] != b"S" && fields[4] != b"B" => {
            Some(format!("the letter is {}", field(fields[4])))
        }
        4.. if outside(fields[1], 1..=ROWS as i64) => {
            Some(format!("the row is {}", field(fields[1])))
        }
        4.. if fields[2].starts_with(b"-") || fields[2] == b"0" => {
            let weight = field(fields[2]);
            Some(format!("the weight is {weight}, which is not above 0"))
        }
        _ => None,
    }
}

/// A row that is not above the one before.
fn rising(fields: &[&[u8]], text: &[u8], place: u32) -> Option<String> {
    let before = Line::numbered(text, place.checked_sub(1)?)?.fields();
    let row = number::small(fields.get(1)?)?;
    let earlier = number::small(before.get(1)?)?;
    (place > 4 && row <= earlier).then(|| format!("row {row} follows row {earlier}"))
}

fn disagreement(heading: Option<Line<'_>>, codes: &[u8]) -> String {
    let tags = |tags: Vec<&'static str>| tags.join(",");
    let record = heading.map(heading::channels).unwrap_or_default();
    let record = tags(record.iter().map(|channel| channel.tag).collect());
    let reference = tags(codes.iter().map(|&code| types::of_code(code).tag).collect());
    let seen = match record == reference {
        true => {
            "the record does not agree with these rows: it is of others, or was changed".to_string()
        }
        false => format!("the record has the tags {record}, and the reference text {reference}"),
    };
    format!("{seen}; {}", refusals::remedy(DISAGREES))
}
