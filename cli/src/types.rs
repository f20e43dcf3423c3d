//! The channel types: how a step of each is read in its unit. Codes, tags and ranges are the library's; a
//! test holds this table against its calls.

use crate::arguments::Words;
use crate::columns::{Side, aligned};
use crate::failure::Failure;
use crate::output;
use crate::status::Status;
use crate::units;
use std::ffi::OsString;

/// A channel type. Values count in steps; a unit has ten to the power of `decimals` of them.
#[derive(Debug, PartialEq, Eq)]
pub struct Type {
    pub code: u8,
    pub tag: &'static str,
    pub name: &'static str,
    /// Empty where there is none, as for pH.
    pub unit: &'static str,
    pub decimals: usize,
    /// The least and the largest value, in steps.
    pub low: i32,
    pub high: i32,
}

const fn channel(
    code: u8,
    tag: &'static str,
    name: &'static str,
    (unit, decimals): (&'static str, usize),
    (low, high): (i32, i32),
) -> Type {
    Type {
        code,
        tag,
        name,
        unit,
        decimals,
        low,
        high,
    }
}

pub const TYPES: [Type; 8] = [
    channel(1, "TOC", "total organic carbon", ("ppb", 0), (0, 2_000)),
    channel(2, "TC", "total carbon", ("ppb", 0), (0, 4_000)),
    channel(3, "IC", "inorganic carbon", ("ppb", 0), (0, 4_000)),
    channel(4, "CND", "conductivity", ("µS/cm", 3), (0, 4_000)),
    channel(5, "TMP", "temperature", ("°C", 1), (-200, 1_500)),
    channel(6, "PH", "pH", ("", 2), (0, 1_400)),
    channel(7, "FLW", "flow", ("l/min", 1), (0, 4_000)),
    channel(8, "ORP", "redox potential", ("mV", 0), (-2_000, 2_000)),
];

/// The type of a code that the library gave.
pub fn of_code(code: u8) -> &'static Type {
    TYPES
        .iter()
        .find(|known| known.code == code)
        .expect("a code of the library")
}

/// The type of a tag.
pub fn of_tag(tag: &[u8]) -> Option<&'static Type> {
    TYPES.iter().find(|known| known.tag.as_bytes() == tag)
}

/// The tag of a channel, counted from 0, with its number where another channel has the same.
pub fn channel_name(codes: &[u8], channel: usize) -> String {
    let code = codes[channel];
    let tag = of_code(code).tag;
    match codes.iter().filter(|&&other| other == code).count() {
        1 => tag.to_string(),
        _ => format!("{tag} ({})", channel + 1),
    }
}

pub fn print_types(words: &[OsString]) -> Result<Status, Failure> {
    Words::of(words, &[])?.require_none("types")?;
    output::print(table().as_bytes())?;
    Ok(Status::Done)
}

fn table() -> String {
    let heading = ["code", "tag", "name", "step", "in steps", "in units"];
    let mut lines = vec![heading.map(str::to_string).to_vec()];
    lines.extend(TYPES.iter().map(|kind| {
        vec![
            kind.code.to_string(),
            kind.tag.to_string(),
            kind.name.to_string(),
            units::step(kind),
            format!("{} to {}", kind.low, kind.high),
            units::between(kind, kind.low.into(), kind.high.into(), 0),
        ]
    }));
    let mut sides = [Side::Left; 6];
    sides[0] = Side::Right;
    aligned(&lines, &sides)
}

#[cfg(test)]
mod tests {
    use super::{TYPES, channel_name};

    /// Whether a reference text with one row of this value is accepted, and the code that it has.
    fn read(tag: &str, value: i64) -> Option<u8> {
        let (text, mut codes) = (format!("REF,1,{tag}\nA,{value}\n"), [0]);
        let read = cundarivo::read_reference(text.as_bytes(), &mut [0], &mut codes);
        read.ok().map(|_| codes[0])
    }

    #[test]
    fn the_table_is_that_of_the_library() {
        for kind in &TYPES {
            let (low, high) = (i64::from(kind.low), i64::from(kind.high));
            assert_eq!(read(kind.tag, low), Some(kind.code));
            assert_eq!(read(kind.tag, high), Some(kind.code));
            assert_eq!(read(kind.tag, low - 1), None);
            assert_eq!(read(kind.tag, high + 1), None);
        }
        let codes = TYPES.map(|kind| kind.code);
        assert_eq!(codes, [1, 2, 3, 4, 5, 6, 7, 8]);
    }

    #[test]
    fn a_repeated_tag_has_its_channels_number() {
        let names = |codes: &[u8]| {
            let channels = 0..codes.len();
            let names: Vec<String> = channels.map(|index| channel_name(codes, index)).collect();
            names.join(" ")
        };
        assert_eq!(names(&[1, 4, 5]), "TOC CND TMP");
        assert_eq!(names(&[1, 4, 1]), "TOC (1) CND TOC (3)");
    }
}
