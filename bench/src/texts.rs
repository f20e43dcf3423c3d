//! The reading of reference texts and the finding of a label, measured.
//!
//! - 256x8: accepted texts of 256 rows and 8 channels, labels of 2 to 11 bytes, values anywhere in
//!   their ranges, one in ten below detection.
//! - largest accepted: the same with labels of 12 bytes and values of 5, 15,654 bytes each.
//! - 65,536 bytes: such a text whose last row ends in a number of some 50,000 digits, so that it is
//!   walked to its end and refused by 4. No accepted text has as many bytes.
//! - label: that of row 256 in a text of 256x8.
//!
//! Plain Rust reads by fields, as in `reader`, and in one pass written for speed, as in `reader_pass`.

use crate::measure::{Line, Lines};
use crate::random::Random;
use crate::{reader, reader_pass};

const ROWS: usize = 256;
const CHANNELS: usize = 8;
const TEXT_LIMIT: usize = 65_536;
const TEXTS: usize = 16;

/// The tags with the ends of their ranges, in the order of their codes.
pub const TAGS: [(&str, i32, i32); CHANNELS] = [
    ("TOC", 0, 2_000),
    ("TC", 0, 4_000),
    ("IC", 0, 4_000),
    ("CND", 0, 4_000),
    ("TMP", -200, 1_500),
    ("PH", 0, 1_400),
    ("FLW", 0, 4_000),
    ("ORP", -2_000, 2_000),
];

/// m and n or the refusal's number and line, the table and the codes.
type Outcome = (
    Result<(usize, usize), reader::Refusal>,
    [i32; ROWS * CHANNELS],
    [u8; CHANNELS],
);

type Read = fn(&[u8]) -> Outcome;

type Label = fn(&[u8]) -> &[u8];

/// The plain ways to read, and how each goes about it.
const BY_FIELDS: &str = "splits lines and fields and keeps the labels in a hash set";
const IN_ONE_PASS: &str = "goes over the bytes once and keeps the labels as numbers";

pub fn measure_texts(random: &mut Random) {
    let lines = Lines::new("bytes");
    let ordinary: Vec<Vec<u8>> = (0..TEXTS)
        .map(|_| ordinary_text(random, ROWS, CHANNELS))
        .collect();
    let largest: Vec<Vec<u8>> = (0..TEXTS).map(|_| largest_text(random)).collect();
    let stretched: Vec<Vec<u8>> = largest.iter().map(|text| stretched(text)).collect();
    let inputs = [
        (
            "256x8",
            "accepted texts of 256 rows and 8 channels",
            &ordinary,
        ),
        ("largest", "accepted texts as long as they can be", &largest),
        (
            "65,536 bytes",
            "texts refused for their last number, of 50,000 digits",
            &stretched,
        ),
    ];
    for (name, input, texts) in inputs {
        measure_reading(&lines, (name, input), texts);
    }
    measure_label(&lines, &ordinary);
}

fn measure_reading(lines: &Lines, (name, input): (&str, &str), texts: &[Vec<u8>]) {
    let ways: [(&str, &str, Read); 2] = [
        ("fields", BY_FIELDS, by_fields),
        ("one pass", IN_ONE_PASS, in_one_pass),
    ];
    for (way, how, plain) in ways {
        let sentence = format!(
            "The proved reading of a reference text against plain Rust that {how}, on {TEXTS} {input}."
        );
        let line = Line {
            name: &format!("read {name}, {way}"),
            sentence: &sentence,
            pieces: (TEXTS, "text"),
        };
        let bytes = |text: &Vec<u8>, _: &Outcome| text.len() as u64;
        lines.measure(
            &line,
            texts,
            |text| proved_read(text),
            |text| plain(text),
            bytes,
        );
    }
}

fn measure_label(lines: &Lines, texts: &[Vec<u8>]) {
    let ways: [(&str, &str, Label); 2] = [
        ("fields", BY_FIELDS, |text| reader::label(text, ROWS)),
        ("one pass", IN_ONE_PASS, |text| {
            reader_pass::label(text, ROWS)
        }),
    ];
    for (way, how, plain) in ways {
        let sentence = format!(
            "The proved finding of the label of row 256, the text tested whole, against plain Rust that {how}, on \
             {TEXTS} accepted texts of 256 rows and 8 channels."
        );
        let line = Line {
            name: &format!("label 256x8, {way}"),
            sentence: &sentence,
            pieces: (TEXTS, "text"),
        };
        let proved = |text: &Vec<u8>| cundarivo::label(text, ROWS).to_vec();
        let plain = |text: &Vec<u8>| plain(text).to_vec();
        lines.measure(&line, texts, proved, plain, |text, _| text.len() as u64);
    }
}

fn proved_read(text: &[u8]) -> Outcome {
    let (mut table, mut codes) = ([0; ROWS * CHANNELS], [0; CHANNELS]);
    let answer = cundarivo::read_reference_into(text, &mut table, &mut codes);
    let counts = match answer.number {
        0 => Ok((answer.m, answer.n)),
        number => Err((number, answer.line)),
    };
    (counts, table, codes)
}

fn by_fields(text: &[u8]) -> Outcome {
    let (mut table, mut codes) = ([0; ROWS * CHANNELS], [0; CHANNELS]);
    let counts = reader::read(text, &mut table, &mut codes);
    (counts, table, codes)
}

fn in_one_pass(text: &[u8]) -> Outcome {
    let (mut table, mut codes) = ([0; ROWS * CHANNELS], [0; CHANNELS]);
    let counts = reader_pass::read(text, &mut table, &mut codes);
    (counts, table, codes)
}

/// A text of m rows and of the first n types.
pub fn ordinary_text(random: &mut Random, m: usize, n: usize) -> Vec<u8> {
    let types = &TAGS[..n];
    let mut text = format!("REF,{n}");
    types
        .iter()
        .for_each(|(tag, ..)| text += &format!(",{tag}"));
    for row in 0..m {
        // The row's number in two digits keeps the labels apart.
        let more = "ABCDEFGHI".get(..random.below(10)).unwrap_or_default();
        text += &format!("\n{row:02X}{more}");
        for channel in types {
            text += &format!(",{}", value(random, *channel).0);
        }
    }
    (text + "\n").into_bytes()
}

/// A value anywhere in its range, one in ten of those above 0 below detection, and what it reads as.
pub fn value(random: &mut Random, (_, low, high): (&str, i32, i32)) -> (String, i32) {
    let number = low + random.below((high - low) as usize + 1) as i32;
    if number > 0 && random.below(10) == 0 {
        (format!("<{number}"), reader::reads_as(number, true))
    } else {
        (number.to_string(), number)
    }
}

/// Every label has 12 bytes and every value 5.
fn largest_text(random: &mut Random) -> Vec<u8> {
    let mut text = format!("REF,{CHANNELS}") + &",ORP,CND".repeat(CHANNELS / 2);
    for row in 0..ROWS {
        text += &format!("\nPOINT-{:03X}{row:03X}", random.below(4096));
        for _ in 0..CHANNELS / 2 {
            let (negative, below) = (random.below(1_001), random.below(3_001));
            text += &format!(",-{},<{}", 1_000 + negative, 1_000 + below);
        }
    }
    (text + "\n").into_bytes()
}

/// The last number with so many digits that the text is as long as a text can be.
fn stretched(text: &[u8]) -> Vec<u8> {
    let (last, rest) = text.split_last().expect("a text");
    let digits = vec![b'7'; TEXT_LIMIT - text.len()];
    [rest, &digits, &[*last]].concat()
}

#[cfg(test)]
mod tests {
    use super::*;
    use std::collections::BTreeSet;

    const DAMAGED: usize = 100_000;
    /// What a damaged byte becomes.
    const BYTES: &[u8] = b"\n,<-0123459ABZ\r +aREF";

    /// The three readers give the same, whatever the text and the room that is lent.
    fn assert_same(text: &[u8], room: (usize, usize)) -> u32 {
        let (mut proved_table, mut proved_codes) = (vec![7; room.0], vec![7; room.1]);
        let answer = cundarivo::read_reference_into(text, &mut proved_table, &mut proved_codes);
        let proved = match answer.number {
            0 => Ok((answer.m, answer.n)),
            number => Err((number, answer.line)),
        };
        for read in [reader::read, reader_pass::read] {
            let (mut table, mut codes) = (vec![7; room.0], vec![7; room.1]);
            let counts = read(text, &mut table, &mut codes);
            let shown = String::from_utf8_lossy(text);
            assert_eq!(counts, proved, "{room:?} {shown}");
            assert_eq!((table, codes), (proved_table.clone(), proved_codes.clone()));
        }
        for row in [0, 1, 2, ROWS, ROWS + 1] {
            let label = cundarivo::label(text, row);
            assert_eq!(label, reader::label(text, row));
            assert_eq!(label, reader_pass::label(text, row));
        }
        answer.number
    }

    /// One to three bytes changed, left out, doubled or moved, lines repeated, or the text cut.
    fn damage(random: &mut Random, text: &mut Vec<u8>) {
        for _ in 0..=random.below(3) {
            let place = random
                .below(text.len().max(1))
                .min(text.len().saturating_sub(1));
            let byte = BYTES[random.below(BYTES.len())];
            match random.below(8) {
                0 if !text.is_empty() => text[place] = byte,
                1 if !text.is_empty() => drop(text.remove(place)),
                2 => text.insert(place, byte),
                3 if random.below(8) == 0 => text.truncate(place),
                4 => repeat_line(random, text),
                5 if random.below(8) == 0 => text.extend_from_slice(b"LAST,1\n"),
                _ => {}
            }
        }
    }

    /// A line comes a second time at the end.
    fn repeat_line(random: &mut Random, text: &mut Vec<u8>) {
        let lines: Vec<&[u8]> = text.split_inclusive(|&byte| byte == b'\n').collect();
        if !lines.is_empty() {
            let line = lines[random.below(lines.len())].to_vec();
            text.extend_from_slice(&line);
        }
    }

    #[test]
    fn damaged_texts_are_read_alike() {
        let mut random = Random(7);
        let mut numbers = BTreeSet::new();
        for _ in 0..DAMAGED {
            let rows = [1, 2, 5, 20][random.below(4)];
            let channels = 1 + random.below(CHANNELS);
            let mut text = ordinary_text(&mut random, rows, channels);
            damage(&mut random, &mut text);
            let table = [ROWS * CHANNELS, random.below(2 * CHANNELS)][random.below(2)];
            let codes = [CHANNELS, random.below(CHANNELS)][random.below(2)];
            numbers.insert(assert_same(&text, (table, codes)));
        }
        let all: BTreeSet<u32> = [0, 1, 2, 3, 4, 5, 6, 7, 13].into();
        assert_eq!(numbers, all, "every answer comes");
    }

    #[test]
    fn large_texts_are_read_alike() {
        let mut random = Random(8);
        let room = (ROWS * CHANNELS, CHANNELS);
        for _ in 0..DAMAGED / 100 {
            let mut text = largest_text(&mut random);
            damage(&mut random, &mut text);
            assert_same(&text, room);
        }
        let text = largest_text(&mut random);
        let mut longer = stretched(&text);
        assert_eq!(assert_same(&longer, room), reader::VALUE_RANGE);
        longer.push(b'\n');
        assert_eq!(assert_same(&longer, room), 1);
        assert_eq!(assert_same(&[text, b"A,1\n".to_vec()].concat(), room), 6);
    }
}
