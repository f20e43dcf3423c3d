//! What the command prints for people, read back: cells of its columns, and numbers in units.

use outside::reference::{CHANNEL_TYPES, ChannelType};

/// The cells of a line in columns.
pub fn cells(line: &str) -> Vec<&str> {
    let cells = line.split("  ").map(str::trim);
    cells.filter(|cell| !cell.is_empty()).collect()
}

/// The unit of a channel, and how many digits behind the point a step has.
fn unit(tag: &str) -> (&'static str, usize) {
    match tag {
        "CND" => (" µS/cm", 3),
        "TMP" => (" °C", 1),
        "PH" => ("", 2),
        "FLW" => (" l/min", 1),
        "ORP" => (" mV", 0),
        _ => (" ppb", 0),
    }
}

/// A number with so many digits behind the point, as a whole number of units in the last of them.
pub fn whole(number: &str, digits: usize) -> i128 {
    let behind = number.split_once('.').map_or(0, |(_, behind)| behind.len());
    assert_eq!(behind, digits, "digits behind the point of {number}");
    let joined = number.trim_start_matches('+').replace('.', "");
    joined.parse().unwrap_or_else(|_| panic!("{number}"))
}

/// Numbers in a channel's unit as parts of its steps, ten parts a step to the power of `more`.
pub fn steps(text: &str, channel: &ChannelType, more: usize) -> Vec<i128> {
    let (unit, decimals) = unit(channel.tag);
    let numbers = text
        .strip_suffix(unit)
        .unwrap_or_else(|| panic!("{text} has not the unit{unit}"));
    let numbers = numbers.split(" to ");
    numbers
        .map(|number| whole(number, decimals + more))
        .collect()
}

/// Asserts that a number in a channel's unit is the nearest one to a fraction of steps.
pub fn assert_nearest(text: &str, channel: &ChannelType, numerator: i128, denominator: i128) {
    let tenths = steps(text, channel, 1);
    let difference = tenths[0] * denominator - 10 * numerator;
    let is_nearest = tenths.len() == 1 && 2 * difference.abs() <= denominator;
    assert!(is_nearest, "{text} for {numerator}/{denominator} steps");
}

/// The types of these codes.
pub fn types(codes: &[u8]) -> Vec<ChannelType> {
    let kind = |code: &u8| CHANNEL_TYPES[usize::from(*code) - 1];
    codes.iter().map(kind).collect()
}

/// How a channel is named: by its tag, with its number where another has the same.
pub fn channel_name(types: &[ChannelType], channel: usize) -> String {
    let tag = types[channel].tag;
    let same = types.iter().filter(|other| other.tag == tag).count();
    match same {
        1 => tag.to_string(),
        _ => format!("{tag} ({})", channel + 1),
    }
}

/// The channel in which a row is farthest from a centre, and D times value less X there.
pub fn farthest(row: &[i32], centre: &[i128]) -> (usize, i128) {
    let places = row.iter().zip(centre);
    let deviations: Vec<i128> = places
        .map(|(&value, place)| 65_536 * i128::from(value) - place)
        .collect();
    let largest = deviations.iter().map(|place| place.abs()).max();
    let channel = deviations
        .iter()
        .position(|place| Some(place.abs()) == largest);
    let channel = channel.expect("a channel");
    (channel, deviations[channel])
}

/// Asserts that a text has lines of printable characters alone.
pub fn assert_printable(text: &str) {
    let is_printable = |character| matches!(character, ' '..='~' | '\n' | '°' | 'µ');
    assert!(text.chars().all(is_printable), "{text:?}");
    assert!(text.ends_with('\n'));
}
