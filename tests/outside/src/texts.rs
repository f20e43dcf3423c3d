//! Reference texts within the rules, of every size: labels that are hard to tell apart, values at
//! the ends of their ranges, below detection and negative.

use crate::random::Random;
use crate::reference::{CHANNEL_TYPES, ChannelType, LABEL_LIMIT};
use crate::rules::{CHANNEL_LIMIT, COORDINATE_LIMIT, ROW_LIMIT};
use crate::sets::Set;
use std::collections::{BTreeSet, HashSet};

const LABEL_BYTES: &[u8] = b"ABCDEFGHIJKLMNOPQRSTUVWXYZ0123456789-";

/// The fields of a line.
pub type Fields = Vec<Vec<u8>>;

/// A text as fields, with what it reads as while it is within the rules.
#[derive(Clone, Debug, PartialEq, Eq)]
pub struct Draft {
    pub types: Vec<ChannelType>,
    pub heading: Fields,
    /// A row's label and values.
    pub rows: Vec<Fields>,
    /// What the values read as, row by row.
    pub table: Vec<i32>,
}

impl Draft {
    /// A text of m rows and n channels; within the rules where m and n are.
    pub fn new(random: &mut Random, m: usize, n: usize) -> Draft {
        let types: Vec<ChannelType> = (0..n).map(|_| random.pick(&CHANNEL_TYPES)).collect();
        let mut draft = Draft::without_rows(types);
        for label in labels(random, m) {
            let types = draft.types.iter();
            let values = types.map(|channel| value(random, channel)).collect();
            draft.add_row(label, values);
        }
        draft
    }

    /// A text of the rows of a set, each coordinate halved into the range of a type as wide as any.
    pub fn of_set(random: &mut Random, set: &Set) -> Draft {
        let is_widest = |channel: &ChannelType| channel.high - channel.low == COORDINATE_LIMIT;
        let widest: Vec<ChannelType> = CHANNEL_TYPES.into_iter().filter(is_widest).collect();
        let types = (0..set.n).map(|_| random.pick(&widest)).collect();
        let mut draft = Draft::without_rows(types);
        let halved = |(channel, place): (&ChannelType, &i32)| {
            let reads = (channel.low + channel.high + place) / 2;
            (reads.to_string(), reads)
        };
        for (label, row) in labels(random, set.m)
            .into_iter()
            .zip(set.places.chunks(set.n))
        {
            let values = draft.types.iter().zip(row).map(halved).collect();
            draft.add_row(label, values);
        }
        draft
    }

    fn without_rows(types: Vec<ChannelType>) -> Draft {
        Draft {
            heading: heading(&types),
            types,
            rows: Vec::new(),
            table: Vec::new(),
        }
    }

    /// Adds a row of value fields, with what they read as.
    fn add_row(&mut self, label: Vec<u8>, values: Vec<(String, i32)>) {
        let mut row = vec![label];
        for (field, reads) in values {
            row.push(field.into_bytes());
            self.table.push(reads);
        }
        self.rows.push(row);
    }

    pub fn bytes(&self) -> Vec<u8> {
        let mut bytes = line(&self.heading);
        for row in &self.rows {
            bytes.extend(line(row));
        }
        bytes
    }
}

/// The heading of these types.
pub fn heading(types: &[ChannelType]) -> Fields {
    let count = types.len().to_string();
    let mut fields = vec![b"REF".to_vec(), count.into_bytes()];
    fields.extend(types.iter().map(|channel| channel.tag.into()));
    fields
}

/// A line of fields, with its byte 10.
pub fn line(fields: &[Vec<u8>]) -> Vec<u8> {
    let mut bytes = fields.join(&b',');
    bytes.push(b'\n');
    bytes
}

/// The fields of a line without its byte 10.
pub fn fields(line: &[u8]) -> Fields {
    line.split(|&byte| byte == b',')
        .map(<[u8]>::to_vec)
        .collect()
}

/// Row and channel counts: most texts are small, some are full.
pub fn size(random: &mut Random) -> (usize, usize) {
    let n = 1 + random.index(CHANNEL_LIMIT);
    match random.below(400) {
        0..360 => (1 + random.index(6), n),
        360..396 => (1 + random.index(40), n),
        396..398 => (1 + random.index(ROW_LIMIT), n),
        398 => (ROW_LIMIT - random.index(2), n),
        _ => (ROW_LIMIT, CHANNEL_LIMIT),
    }
}

/// `count` labels, all different. Those of two letters differ in length or in few places.
fn labels(random: &mut Random, count: usize) -> Vec<Vec<u8>> {
    let two = [random.pick(LABEL_BYTES), random.pick(LABEL_BYTES)];
    let letters = if two[0] != two[1] && random.once_in(2) {
        &two
    } else {
        LABEL_BYTES
    };
    let mut used = HashSet::new();
    let mut list = Vec::with_capacity(count);
    while list.len() < count {
        let label = label(random, letters);
        if used.insert(label.clone()) {
            list.push(label);
        }
    }
    list
}

/// A label of any of the bytes that labels are made of.
pub fn any_label(random: &mut Random) -> Vec<u8> {
    label(random, LABEL_BYTES)
}

fn label(random: &mut Random, letters: &[u8]) -> Vec<u8> {
    let length = 1 + random.index(LABEL_LIMIT);
    (0..length).map(|_| random.pick(letters)).collect()
}

/// A value field below detection, and what it reads as.
fn below_detection(number: i32) -> (String, i32) {
    (format!("<{number}"), number / 2)
}

/// A field that reads as a value of a type: plain, or below detection where such a one is in the range.
pub fn field_of(random: &mut Random, channel: &ChannelType, value: i32) -> String {
    let number = 2 * value + random.between(0, 1);
    if (1..=channel.high).contains(&number) && random.once_in(4) {
        below_detection(number).0
    } else {
        value.to_string()
    }
}

/// The kinds of values below detection.
pub const BELOW_DETECTION: [&str; 3] = [
    "below detection: <1",
    "below detection: odd above 1",
    "below detection: even",
];

/// Those in a text within the rules, each once.
pub fn kinds_below_detection(text: &[u8]) -> BTreeSet<&'static str> {
    let fields = text.split(|byte| matches!(byte, b',' | b'\n'));
    let numbers = fields.filter_map(|field| field.strip_prefix(b"<"));
    let kind = |number: &[u8]| match number {
        b"1" => BELOW_DETECTION[0],
        [.., last] if last % 2 == 1 => BELOW_DETECTION[1],
        _ => BELOW_DETECTION[2],
    };
    numbers.map(kind).collect()
}

/// A value field within the range of a type, and what it reads as.
pub fn value(random: &mut Random, channel: &ChannelType) -> (String, i32) {
    let ChannelType { low, high, .. } = *channel;
    let number = match random.below(10) {
        0 => low,
        1 => high,
        2 => random.between(low, low + 9),
        3 => random.between(high - 9, high),
        4 => 0,
        5 => return below_detection(random.between(1, high)),
        6 => return below_detection(random.pick(&[1, 2, 9, 10, high - 1, high])),
        _ => random.between(low, high),
    };
    (number.to_string(), number)
}
