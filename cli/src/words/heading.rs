//! The heading of a reference text or of a record: the word, n and n tags.

use super::line::{self, Line};
use super::{counted, field, number};
use crate::types::{self, TYPES, Type};

/// The types of a heading's tags that are known.
pub fn channels(line: Line<'_>) -> Vec<&'static Type> {
    let fields = line.fields();
    fields
        .iter()
        .skip(2)
        .filter_map(|tag| types::of_tag(tag))
        .collect()
}

/// Why a line is no heading with this word, `REF` or `ENV`.
pub fn form(line: Line<'_>, word: &str) -> String {
    let fields = line.fields();
    line::saved_otherwise(line)
        .or_else(|| line::comment(line))
        .or_else(|| blank(&fields))
        .or_else(|| no_word(&fields, word))
        .or_else(|| no_count(&fields, word))
        .or_else(|| other_count(&fields))
        .or_else(|| fields[2..].iter().find_map(|tag| unknown(tag)))
        .or_else(|| line::no_end(line))
        .unwrap_or_else(|| format!("the heading is {word}, n and n tags, as {word},2,TOC,CND"))
}

fn blank(fields: &[&[u8]]) -> Option<String> {
    fields.iter().find_map(|part| {
        let blank = line::blank(part)?.words();
        let part = field(part);
        Some(format!(
            "the field {part} {blank}: there are no blanks in a line"
        ))
    })
}

fn no_word(fields: &[&[u8]], word: &str) -> Option<String> {
    let first = fields[0];
    let asked = format!("the first line is the heading: {word}, n and n tags");
    let shown = field(first);
    if first == word.as_bytes() {
        None
    } else if first.eq_ignore_ascii_case(word.as_bytes()) {
        Some(format!(
            "{shown} has lower-case letters: the word is {word}"
        ))
    } else if first.is_empty() {
        Some(format!("the line starts with an empty field; {asked}"))
    } else {
        let text = match first {
            b"REF" => ", as a reference text does",
            b"ENV" => ", as a record does",
            _ => "",
        };
        Some(format!("the line starts with {shown}{text}; {asked}"))
    }
}

/// What stands in the place of n, where that is no number from 1 to 8.
fn no_count(fields: &[&[u8]], word: &str) -> Option<String> {
    let Some(n) = fields.get(1) else {
        return Some(format!(
            "behind {word} stand n, the number of tags, and n tags"
        ));
    };
    let tags = fields[1..]
        .iter()
        .filter(|tag| types::of_tag(tag).is_some());
    let shown = field(n);
    if types::of_tag(&n.to_ascii_uppercase()).is_some() {
        let tags = counted(tags.count(), "known tag");
        return Some(format!(
            "behind {word} stands {shown} in place of n, the number of tags ({tags} in the line)"
        ));
    }
    number::outside("n, the number of tags,", n, 1..=8)
}

/// Another number of tags than n says.
fn other_count(fields: &[&[u8]]) -> Option<String> {
    let (n, tags) = (number::small(fields[1])?, &fields[2..]);
    let n = usize::try_from(n).ok()?;
    if tags.len() == n {
        None
    } else if tags.len() > n && tags[n..].iter().all(|tag| tag.is_empty()) {
        let commas = counted(tags.len() - n, "comma");
        Some(format!(
            "the line ends in {commas} too many behind its {}",
            counted(n, "tag")
        ))
    } else if tags.iter().all(|tag| types::of_tag(tag).is_some()) {
        Some(format!(
            "n is {n}, with {} behind it",
            counted(tags.len(), "tag")
        ))
    } else {
        let seen = counted(tags.len(), "field");
        Some(format!(
            "n is {n}, with {seen} behind it in place of {}",
            counted(n, "tag")
        ))
    }
}

/// What is told of a tag that no type has.
fn unknown(tag: &[u8]) -> Option<String> {
    let shown = field(tag);
    let upper = tag.to_ascii_uppercase();
    match (types::of_tag(tag), types::of_tag(&upper)) {
        (Some(_), _) => None,
        (None, Some(known)) => Some(format!(
            "the tag {shown} has lower-case letters: it is written {}",
            known.tag
        )),
        (None, None) => {
            let known = TYPES.map(|known| known.tag).join(", ");
            let seen = match tag {
                [] => "a tag is empty".to_string(),
                _ => format!("{shown} is not a known tag"),
            };
            let meant = meant(&upper).map_or(String::new(), |tag| format!(" (is it {tag}?)"));
            Some(format!("{seen}{meant}: the tags are {known}"))
        }
    }
}

/// The tag that the word is with one letter more in its middle, as TEMP is TMP.
fn meant(word: &[u8]) -> Option<&'static str> {
    let without = |place: usize| [&word[..place], &word[place + 1..]].concat();
    let (first, last) = (1, word.len().checked_sub(1)?);
    let mut tags = (first..last).filter_map(|place| types::of_tag(&without(place)));
    tags.next()
        .map(|known| known.tag)
        .filter(|tag| tag.len() > 2)
}
