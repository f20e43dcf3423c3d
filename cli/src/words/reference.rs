//! The lines of a reference text.

use super::line::{self, Line};
use super::{counted, field, fields, heading, label, value};
use crate::types::{self, Type};
use cundarivo::{ROWS, Refusal};

pub fn hint(text: &[u8], refusal: Refusal) -> String {
    let at_fault = Line::numbered(text, refusal.line);
    let channels = Line::numbered(text, 1)
        .map(heading::channels)
        .unwrap_or_default();
    match (refusal.number, at_fault) {
        (2, Some(line)) if line.bytes.is_empty() => {
            "the first line is empty: it is the heading, REF, n and n tags".to_string()
        }
        (2, Some(line)) => heading::form(line, "REF"),
        (3, Some(line)) => match line::nothing(line) {
            Some(seen) => {
                let lines = "each line behind the heading is a row";
                line::to_remove(text, refusal.line, seen, lines)
            }
            None => row(line, &channels),
        },
        (4, Some(line)) => range(line, &channels),
        (5, Some(line)) => repeated(text, line, refusal.line),
        (6, line) => rows(text, line),
        _ => form(&channels),
    }
}

fn form(channels: &[&Type]) -> String {
    format!("a row is a label and {}", counted(channels.len(), "value"))
}

fn heading_again(parts: &[&[u8]]) -> Option<String> {
    let tag = parts.get(2).is_some_and(|tag| types::of_tag(tag).is_some());
    let word = ["REF", "ENV"]
        .into_iter()
        .find(|word| parts[0] == word.as_bytes());
    word.filter(|_| tag).map(|word| {
        format!("the line starts with {word} and has tags, as a heading: a text has one, in its first line")
    })
}

fn row(line: Line<'_>, channels: &[&Type]) -> String {
    let parts = line.fields();
    line::saved_otherwise(line)
        .or_else(|| heading_again(&parts))
        .or_else(|| fields::of_row(line, channels))
        .or_else(|| (!label::accepted(parts[0])).then(|| label::form(parts[0])))
        .or_else(|| value::first(parts[1..].iter(), channels, 3))
        .or_else(|| line::no_end(line))
        .unwrap_or_else(|| form(channels))
}

fn range(line: Line<'_>, channels: &[&Type]) -> String {
    let values = &line.fields()[1..];
    value::first(values.iter(), channels, 4).unwrap_or_else(|| form(channels))
}

fn repeated(text: &[u8], line: Line<'_>, number: u32) -> String {
    let label = line.fields()[0];
    let lines = text.split_inclusive(|&byte| byte == b'\n').map(Line::of);
    let rows = (1..number).zip(lines).skip(1);
    let mut earlier = rows.filter(|(_, row)| row.fields()[0] == label);
    let earlier = earlier.next().map(|(earlier, _)| earlier);
    let place = earlier.map_or(String::new(), |earlier| format!(" on line {earlier}"));
    let label = field(label);
    format!("the label {label} stands{place} already: no two rows have the same label")
}

fn rows(text: &[u8], line: Option<Line<'_>>) -> String {
    let lines = counted(line::count(text), "line");
    let asked = format!("a reference text has 1 to {ROWS} rows");
    match line {
        None => format!("no row follows the heading: {asked}"),
        Some(line) if line.bytes.is_empty() => format!(
            "the line is empty, where a row past the last would stand: {asked} and no empty line"
        ),
        Some(_) => {
            format!(
                "this would be row {}: the text has {lines} with its heading, and {asked}",
                ROWS + 1
            )
        }
    }
}
