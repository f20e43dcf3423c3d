//! Texts, readings, records and alert settings in full sweeps: every change of one byte, of the lines and of
//! a number, every short value field, every number near the ranges, every short tag.

use crate::reference::{CHANNEL_TYPES, ChannelType};
use crate::rules::ROW_LIMIT;

/// Small texts whose every byte is changed.
pub const SMALL_TEXTS: [&str; 3] = [
    "REF,2,TOC,ORP\nA,0,-12\nB-1,<7,20\n",
    "REF,1,PH\nZ,1400\nZZ,0\n",
    "REF,3,TC,IC,TMP\n0,4000,<1,-200\n",
];

/// Small readings whose every byte is changed, with the codes of their types.
pub const SMALL_READINGS: [(&str, &[u8]); 2] = [
    ("A,TOC,0,CND,0\n", &[1, 4]),
    ("B-1,ORP,-12,TMP,<7,PH,1400\n", &[8, 5, 6]),
];

/// The bytes of value fields, and the most of them in a field.
const VALUE_BYTES: &[u8] = b"0124-<";
const VALUE_LENGTH: usize = 5;
const TAG_LENGTH: usize = 3;
/// Every range lies from the negative of this to this.
const NUMBERS: i32 = 4_100;

/// The text with each byte changed to each other value, with each value put in before each byte and
/// at the end, with each byte removed, and cut off at each byte.
pub fn one_byte_changes(text: &[u8], mut visit: impl FnMut(&[u8])) {
    for place in 0..=text.len() {
        let (before, after) = text.split_at(place);
        visit(before);
        for value in 0..=u8::MAX {
            visit(&[before, &[value], after].concat());
        }
        if let Some((&own, rest)) = after.split_first() {
            visit(&[before, rest].concat());
            for value in (0..=u8::MAX).filter(|&value| value != own) {
                visit(&[before, &[value], rest].concat());
            }
        }
    }
}

/// The text with each line dropped, with each put in again before each line and at the end, and with
/// each two lines exchanged.
pub fn line_changes(text: &[u8], mut visit: impl FnMut(&[u8])) {
    let lines: Vec<&[u8]> = text.split_inclusive(|&byte| byte == b'\n').collect();
    for one in 0..lines.len() {
        let mut dropped = lines.clone();
        dropped.remove(one);
        visit(&dropped.concat());
        for other in 0..=lines.len() {
            let mut doubled = lines.clone();
            doubled.insert(other, lines[one]);
            visit(&doubled.concat());
        }
        for other in one + 1..lines.len() {
            let mut exchanged = lines.clone();
            exchanged.swap(one, other);
            visit(&exchanged.concat());
        }
    }
}

/// The text with each field that is a number changed to each of the fields that `others` gives for
/// it.
pub fn number_changes(
    text: &[u8],
    others: impl Fn(i128) -> Vec<String>,
    mut visit: impl FnMut(&[u8]),
) {
    let is_field = |byte: &u8| !matches!(byte, b',' | b'\n');
    let mut start = 0;
    for field in text.split(|byte| !is_field(byte)) {
        let (before, after) = (&text[..start], &text[start + field.len()..]);
        let number = std::str::from_utf8(field).ok().and_then(|f| f.parse().ok());
        for other in number.map_or(Vec::new(), &others) {
            visit(&[before, other.as_bytes(), after].concat());
        }
        start += field.len() + 1;
    }
}

/// A text of one row with this field under this type.
fn one_value(channel: &ChannelType, field: &[u8]) -> Vec<u8> {
    let heading = format!("REF,1,{}\nA,", channel.tag);
    [heading.as_bytes(), field, b"\n"].concat()
}

/// Every field of at most five of the bytes that numbers are made of, under every type.
pub fn short_values(mut visit: impl FnMut(&[u8])) {
    short_fields(|channel, field| visit(&one_value(channel, field)));
}

/// Every number in and round the ranges, plain and after `<`, under every type.
pub fn near_numbers(mut visit: impl FnMut(&[u8])) {
    near_fields(|channel, field| visit(&one_value(channel, field)));
}

/// How many values below detection there are under the eight types: the sum of their highs.
pub const BELOW_DETECTION: usize = 2_000 + 4 * 4_000 + 1_500 + 1_400 + 2_000;

/// For every type, texts with each number from 1 to its high after `<`, in rows, and these numbers.
pub fn rows_below_detection(mut visit: impl FnMut(&ChannelType, &[i32], &[u8])) {
    for channel in &CHANNEL_TYPES {
        let numbers: Vec<i32> = (1..=channel.high).collect();
        for numbers in numbers.chunks(ROW_LIMIT) {
            let rows = numbers
                .iter()
                .map(|number| format!("R-{number},<{number}\n"));
            let text = format!("REF,1,{}\n", channel.tag) + &rows.collect::<String>();
            visit(channel, numbers, text.as_bytes());
        }
    }
}

/// For every type, a reading with each number from 1 to its high after `<`, and this number.
pub fn readings_below_detection(mut visit: impl FnMut(&ChannelType, i32, &[u8])) {
    for channel in &CHANNEL_TYPES {
        for number in 1..=channel.high {
            let field = format!("<{number}");
            let text = one_channel(channel.tag.as_bytes(), field.as_bytes());
            visit(channel, number, &text);
        }
    }
}

/// Every tag of at most three capital letters.
pub fn short_tags(mut visit: impl FnMut(&[u8])) {
    for tag in short_words() {
        visit(&[b"REF,1,", &tag[..], b"\nA,1\n"].concat());
    }
}

/// A reading of one channel with this tag and this value.
fn one_channel(tag: &[u8], field: &[u8]) -> Vec<u8> {
    [b"A,", tag, b",", field, b"\n"].concat()
}

/// Readings that differ little from small ones, with the codes of their types: every change of one
/// byte, every value and every tag.
pub fn readings(mut visit: impl FnMut(&[u8], &[u8])) {
    for (text, codes) in SMALL_READINGS {
        one_byte_changes(text.as_bytes(), |changed| visit(codes, changed));
    }
    values_of_readings(|channel, text| visit(&[channel.code], text));
    tags_of_readings(|channel, text| visit(&[channel.code], text));
}

/// For every type, a reading of one channel with each short field, and with each number in and
/// round the ranges, plain and after `<`.
pub fn values_of_readings(mut visit: impl FnMut(&ChannelType, &[u8])) {
    let mut reading = |channel: &ChannelType, field: &[u8]| {
        visit(channel, &one_channel(channel.tag.as_bytes(), field));
    };
    short_fields(&mut reading);
    near_fields(&mut reading);
}

/// For every type, a reading of one channel with each tag of at most three capital letters, once
/// with a value that is within every range and once with one that is within none.
pub fn tags_of_readings(mut visit: impl FnMut(&ChannelType, &[u8])) {
    for tag in short_words() {
        for channel in &CHANNEL_TYPES {
            visit(channel, &one_channel(&tag, b"1"));
            visit(channel, &one_channel(&tag, b"4001"));
        }
    }
}

/// Small texts of alert settings.
pub const SMALL_SETTINGS: [&str; 3] = ["1,1\n", "12,99\n3,40\n", "2,2\n2,2\n98,7\n"];

/// The bytes of settings, and the most of them in a text.
const SETTING_BYTES: &[u8] = b"019,\n";
const SETTINGS_LENGTH: usize = 6;

/// Every short text of the bytes that settings are made of, and those that differ little from small ones.
pub fn settings(mut visit: impl FnMut(&[u8])) {
    for text in words(SETTING_BYTES, SETTINGS_LENGTH) {
        visit(&text);
    }
    for text in SMALL_SETTINGS {
        one_byte_changes(text.as_bytes(), &mut visit);
        line_changes(text.as_bytes(), &mut visit);
    }
}

fn short_fields(mut visit: impl FnMut(&ChannelType, &[u8])) {
    for field in words(VALUE_BYTES, VALUE_LENGTH) {
        for channel in &CHANNEL_TYPES {
            visit(channel, &field);
        }
    }
}

fn near_fields(mut visit: impl FnMut(&ChannelType, &[u8])) {
    for channel in &CHANNEL_TYPES {
        for number in -NUMBERS..=NUMBERS {
            visit(channel, number.to_string().as_bytes());
            visit(channel, format!("<{number}").as_bytes());
        }
    }
}

fn short_words() -> Vec<Vec<u8>> {
    let letters: Vec<u8> = (b'A'..=b'Z').collect();
    words(&letters, TAG_LENGTH)
}

/// Every word of at most so many letters, the empty one included.
fn words(letters: &[u8], length: usize) -> Vec<Vec<u8>> {
    let mut all = vec![Vec::new()];
    let mut from = 0;
    for _ in 0..length {
        let to = all.len();
        for word in from..to {
            for &letter in letters {
                all.push([&all[word][..], &[letter]].concat());
            }
        }
        from = to;
    }
    all
}
