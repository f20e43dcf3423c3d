//! A single reading: a label, then tag and value of each channel of the envelope.

use super::line::{self, Line};
use super::{counted, field, fields, label, number, value};
use crate::types::{self, Type};
use cundarivo::Refusal;

/// The hint on a refused reading. `line` has its byte 10 where it is ended by one; `codes` are those of the
/// envelope.
pub fn hint(refusal: Refusal, line: &[u8], codes: &[u8]) -> String {
    let line = Line::of(line);
    let channels: Vec<&'static Type> = codes.iter().map(|&code| types::of_code(code)).collect();
    match refusal.number {
        3 => form(line, &channels),
        10 => tag(&line.fields(), &channels),
        4 => range(&line.fields(), &channels),
        _ => asked(&channels),
    }
}

fn asked(channels: &[&Type]) -> String {
    let tags: Vec<&str> = channels.iter().map(|channel| channel.tag).collect();
    let order = tags.join(", ");
    match tags.len() {
        1 => format!("a reading is a label, the tag {order} and its value"),
        _ => format!("a reading is a label, then tag and value of {order} in this order"),
    }
}

fn form(line: Line<'_>, channels: &[&Type]) -> String {
    if let Some(seen) = line::nothing(line) {
        return format!("the line {seen}: remove it, each line is a reading");
    }
    let fields = line.fields();
    line::saved_otherwise(line)
        .or_else(|| count(line, &fields, channels))
        .or_else(|| (!label::accepted(fields[0])).then(|| label::form(fields[0])))
        .or_else(|| value::first(values(&fields), channels, 3))
        .or_else(|| line::no_end(line))
        .unwrap_or_else(|| asked(channels))
}

/// Another number of fields than the envelope's channels ask for.
fn count(line: Line<'_>, fields: &[&[u8]], channels: &[&Type]) -> Option<String> {
    let parts = format!(
        "a label, then tag and value of {}",
        counted(channels.len(), "channel")
    );
    let seen = fields::count(fields, 2 * channels.len() + 1, &parts)?;
    if let Some(word) = text_heading(fields) {
        return Some(format!(
            "the line starts with {word}, as a heading: readings have none"
        ));
    }
    if let Some(comment) = line::comment(line) {
        return Some(comment);
    }
    let more = no_tags(fields, channels)
        .or_else(|| no_label(fields, channels))
        .or_else(|| side_by_side(fields));
    let more = more.map_or(String::new(), |more| format!("; {more}"));
    Some(format!("{seen}{more}"))
}

fn text_heading(fields: &[&[u8]]) -> Option<&'static str> {
    let word = ["REF", "ENV"]
        .into_iter()
        .find(|word| fields[0] == word.as_bytes());
    let n = fields.get(1).and_then(|n| number::small(n));
    word.filter(|_| n.is_some())
}

/// A row of a reference text in place of a reading.
fn no_tags(fields: &[&[u8]], channels: &[&Type]) -> Option<String> {
    let values = &fields[1..];
    let known = values
        .iter()
        .zip(channels)
        .all(|(field, channel)| value::refusal(channel, field) != 3);
    (values.len() == channels.len() && known)
        .then(|| "behind the label stand values without tags".to_string())
}

fn no_label(fields: &[&[u8]], channels: &[&Type]) -> Option<String> {
    let tags = fields.iter().step_by(2);
    let agreed = tags
        .zip(channels)
        .all(|(tag, channel)| *tag == channel.tag.as_bytes());
    (fields.len() == 2 * channels.len() && agreed)
        .then(|| "the line starts with the first tag, without a label".to_string())
}

/// Two numbers with no tag between them.
fn side_by_side(fields: &[&[u8]]) -> Option<String> {
    let values = fields.get(2..)?;
    let pair = values
        .windows(2)
        .find(|pair| number::fault(pair[0]).is_none() && number::digits(pair[1]))?;
    let shown = field(&[pair[0], b",", pair[1]].concat());
    Some(format!(
        "{shown} is two numbers with no tag between them, and a number has no comma"
    ))
}

/// The leftmost tag that is not the envelope's.
fn tag(fields: &[&[u8]], channels: &[&Type]) -> String {
    let tags: Vec<&[u8]> = fields.iter().skip(1).step_by(2).copied().collect();
    let mut pairs = tags.iter().zip(channels).enumerate();
    let found = pairs.find(|(_, (tag, channel))| **tag != channel.tag.as_bytes());
    let Some((index, (tag, channel))) = found else {
        return asked(channels);
    };
    let seen = format!(
        "tag {} is {}, and {} is expected there",
        index + 1,
        field(tag),
        channel.tag
    );
    if let Some(blank) = line::blank(tag) {
        return format!(
            "{seen}: the tag {}, and there are no blanks in a line",
            blank.words()
        );
    }
    let more = if tag.eq_ignore_ascii_case(channel.tag.as_bytes()) {
        "tags are in upper case; "
    } else if same_tags(&tags, channels) {
        "the same tags in another order; "
    } else {
        ""
    };
    format!("{seen}: {more}{}", asked(channels))
}

fn same_tags(tags: &[&[u8]], channels: &[&Type]) -> bool {
    let mut tags = tags.to_vec();
    let mut wanted: Vec<&[u8]> = channels
        .iter()
        .map(|channel| channel.tag.as_bytes())
        .collect();
    tags.sort_unstable();
    wanted.sort_unstable();
    tags == wanted
}

fn range(fields: &[&[u8]], channels: &[&Type]) -> String {
    value::first(values(fields), channels, 4).unwrap_or_else(|| asked(channels))
}

/// What stands in the places of values.
fn values<'f, 't>(fields: &'f [&'t [u8]]) -> impl Iterator<Item = &'f &'t [u8]> {
    fields.iter().skip(2).step_by(2)
}
