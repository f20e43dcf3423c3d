//! Readings within the rules: any label, the tags of the channels, and values over their whole
//! ranges, at the ends and below detection.

use crate::random::Random;
use crate::reference::{CHANNEL_TYPES, ChannelType};
use crate::rules::CHANNEL_LIMIT;
use crate::texts::{self, Draft, Fields};

/// Labels that are words elsewhere, or as short as they can be.
const LABELS: [&str; 8] = ["REF", "ENV", "TOC", "PH", "0", "-", "A", "W"];

/// A text as the fields of its first line, and what follows the last of them.
#[derive(Clone, Debug, PartialEq, Eq)]
pub struct Line {
    pub fields: Fields,
    /// Byte 10, while the text is within the rules.
    pub end: Vec<u8>,
}

impl Line {
    /// The first line of a text, all that follows it being its end.
    pub fn of(text: &[u8]) -> Line {
        let length = text.iter().take_while(|&&byte| byte != b'\n').count();
        let (line, end) = text.split_at(length);
        Line {
            fields: texts::fields(line),
            end: end.to_vec(),
        }
    }

    pub fn bytes(&self) -> Vec<u8> {
        let mut bytes = self.fields.join(&b',');
        bytes.extend(&self.end);
        bytes
    }

    /// The place of a channel's tag; the last place where a damaged line has fewer.
    pub fn tag_place(&self, channel: usize) -> usize {
        (1 + 2 * channel).min(self.fields.len() - 1)
    }

    /// The place of a channel's value; the last place where a damaged line has fewer.
    pub fn value_place(&self, channel: usize) -> usize {
        (2 + 2 * channel).min(self.fields.len() - 1)
    }
}

/// A reading within the rules, with what its values read as.
#[derive(Clone, Debug, PartialEq, Eq)]
pub struct ReadingDraft {
    pub line: Line,
    pub row: Vec<i32>,
}

impl ReadingDraft {
    /// A reading of any values of these types.
    pub fn new(random: &mut Random, types: &[ChannelType]) -> ReadingDraft {
        let (values, row): (Vec<String>, Vec<i32>) = types
            .iter()
            .map(|channel| texts::value(random, channel))
            .unzip();
        let values: Fields = values.into_iter().map(String::into_bytes).collect();
        let line = line(label(random), types, &values);
        ReadingDraft { line, row }
    }

    pub fn bytes(&self) -> Vec<u8> {
        self.line.bytes()
    }
}

/// The line of a label, and tag and value of each channel.
pub fn line(label: Vec<u8>, types: &[ChannelType], values: &[Vec<u8>]) -> Line {
    let mut fields = vec![label];
    for (channel, value) in types.iter().zip(values) {
        fields.extend([channel.tag.into(), value.clone()]);
    }
    Line {
        fields,
        end: b"\n".to_vec(),
    }
}

/// A reading that reads as these values, plain and below detection, with any label.
pub fn of_values(random: &mut Random, types: &[ChannelType], values: &[i32]) -> Vec<u8> {
    let channels = types.iter().zip(values);
    let fields: Fields = channels
        .map(|(channel, &value)| texts::field_of(random, channel, value).into_bytes())
        .collect();
    line(label(random), types, &fields).bytes()
}

/// The rows of a reference text as readings.
pub fn of_rows(reference: &Draft) -> Vec<Vec<u8>> {
    let reading = |row: &Fields| line(row[0].clone(), &reference.types, &row[1..]).bytes();
    reference.rows.iter().map(reading).collect()
}

pub fn label(random: &mut Random) -> Vec<u8> {
    if random.once_in(8) {
        random.pick(&LABELS).into()
    } else {
        texts::any_label(random)
    }
}

/// The types of 1 to 8 channels.
pub fn types(random: &mut Random) -> Vec<ChannelType> {
    let n = 1 + random.index(CHANNEL_LIMIT);
    (0..n).map(|_| random.pick(&CHANNEL_TYPES)).collect()
}
