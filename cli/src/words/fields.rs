//! Another number of fields than a row asks for.

use super::line::{self, Line};
use super::{counted, field, number, value};
use crate::types::Type;
use crate::units;

/// What is told of the fields of a row where they are not a label and a value of each channel.
pub fn of_row(line: Line<'_>, channels: &[&Type]) -> Option<String> {
    let fields = line.fields();
    let parts = format!("a label and {}", counted(channels.len(), "value"));
    let seen = count(&fields, channels.len() + 1, &parts)?;
    let comma = decimal_comma(&fields, channels).unwrap_or_default();
    line::comment(line).or(Some(format!("{seen}{comma}")))
}

/// Another number of fields than is asked for; `parts` says what they are.
pub fn count(fields: &[&[u8]], wanted: usize, parts: &str) -> Option<String> {
    if fields.len() == wanted {
        return None;
    }
    Some(match commas_at_end(fields, wanted) {
        Some(seen) => format!("{seen}: {wanted} fields are asked for, {parts}"),
        None => {
            let seen = counted(fields.len(), "field");
            format!("the line has {seen}, and {wanted} are asked for, {parts}")
        }
    })
}

/// Empty fields behind those that are asked for, and no other.
fn commas_at_end(fields: &[&[u8]], wanted: usize) -> Option<String> {
    let more = fields.get(wanted..).filter(|more| !more.is_empty())?;
    let empty = more.iter().all(|field| field.is_empty());
    empty.then(|| format!("the line ends in {} too many", counted(more.len(), "comma")))
}

/// Where one field is too many: the only two that side by side could be one value with a decimal comma, all
/// others being values of their channels; where there is no such pair, that numbers have no comma.
fn decimal_comma(fields: &[&[u8]], channels: &[&Type]) -> Option<String> {
    let values = fields
        .get(1..)
        .filter(|values| values.len() > channels.len())?;
    let numbers = values.iter().all(|value| number::small(value).is_some());
    let mut pairs = (0..channels.len()).filter_map(|place| joined(values, channels, place));
    match (pairs.next(), pairs.next()) {
        (Some(pair), None) => Some(pair),
        _ => numbers.then(|| "; a number has no comma in it".to_string()),
    }
}

/// The value that starts at a place, taken as two fields.
fn joined(values: &[&[u8]], channels: &[&Type], place: usize) -> Option<String> {
    let (before, behind) = (values[place], values.get(place + 1)?);
    let channel = channels[place];
    let one_more = values.len() == channels.len() + 1;
    let steps = value::exact(channel, &[before, b".", behind].concat())?;
    let others = channels.iter().enumerate().all(|(index, other)| {
        let moved = if index > place { index + 1 } else { index };
        index == place || value::refusal(other, values[moved]) == 0
    });
    let within = (i64::from(channel.low)..=i64::from(channel.high)).contains(&steps);
    (one_more && others && within).then(|| {
        let pair = field(&[before, b",", behind].concat());
        let whole = units::whole(channel, steps);
        format!(
            "; if {pair} is one value with a decimal comma, {whole} under {} is {steps}",
            channel.tag
        )
    })
}

#[cfg(test)]
mod tests {
    use super::of_row;
    use crate::types::{Type, of_tag};
    use crate::words::line::Line;

    /// What is told behind the count of the fields.
    fn told(row: &str) -> String {
        let channels = ["TMP", "FLW", "ORP"].map(|tag| of_tag(tag.as_bytes()).expect("a tag"));
        let channels: Vec<&Type> = channels.to_vec();
        let hint = of_row(Line::of(row.as_bytes()), &channels).expect("another count");
        let (_, told) = hint.split_once("a label and 3 values").expect("the count");
        told.to_string()
    }

    #[test]
    fn a_decimal_comma_is_told_where_it_can_be_the_only_one() {
        let only = |pair: &str, value: &str| {
            format!("; if '{pair}' is one value with a decimal comma, {value}")
        };
        // 3999 is a value of FLW and not of ORP, -44 of ORP and not of FLW.
        let temperature = only("22,8", "22.8 °C under TMP is 228");
        assert_eq!(told("A,22,8,3999,-44\n"), temperature);
        let flow = only("34,6", "34.6 l/min under FLW is 346");
        assert_eq!(told("A,-7,34,6,-44\n"), flow);
        // Both could be.
        assert_eq!(told("A,22,8,6,-44\n"), "; a number has no comma in it");
        // Two are too many.
        assert_eq!(told("A,22,8,34,6,-44\n"), "; a number has no comma in it");
        assert_eq!(told("A,22,ND,8,-44\n"), "");
    }

    /// Only where every field too many is empty are there commas at the end.
    #[test]
    fn a_field_behind_an_empty_one_is_no_comma_at_the_end() {
        let channels = [of_tag(b"TOC").expect("a tag")];
        let told = |row: &str| of_row(Line::of(row.as_bytes()), &channels).expect("another count");
        assert!(told("A,1,,\n").starts_with("the line ends in 2 commas too many"));
        assert!(told("A,1,,5\n").starts_with("the line has 4 fields, and 2 are asked for"));
    }
}
