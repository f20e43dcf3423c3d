//! Numbers as people read them: steps of a channel in its unit.

use crate::distances::radius_tenths;
use crate::types::Type;

/// A whole number of steps, as `22.8 °C` for 228 under TMP.
pub fn whole(channel: &Type, steps: i64) -> String {
    with_unit(channel, fraction(i128::from(steps), 1, channel.decimals, 0))
}

/// A fraction of steps to one digit more than a step has, halves away from zero.
pub fn part(channel: &Type, numerator: i128, denominator: i128) -> String {
    with_unit(
        channel,
        fraction(numerator, denominator, channel.decimals, 1),
    )
}

/// The same with its sign, also where it is not below 0.
pub fn deviation(channel: &Type, numerator: i128, denominator: i128) -> String {
    let number = part(channel, numerator, denominator);
    match number.starts_with('-') {
        true => number,
        false => format!("+{number}"),
    }
}

/// From one number of steps to another, in parts of ten to the power of `more` of a step.
pub fn between(channel: &Type, low: i128, high: i128, more: usize) -> String {
    let [low, high] = [low, high].map(|number| decimal(number, channel.decimals + more));
    with_unit(channel, format!("{low} to {high}"))
}

/// What a step is, as `0.1 °C`.
pub fn step(channel: &Type) -> String {
    whole(channel, 1)
}

/// The radius of a ball in steps, not rounded down.
pub fn radius(scaled_squared_radius: u64) -> String {
    let tenths = radius_tenths(scaled_squared_radius);
    format!("{} steps", decimal(tenths as i128, 1))
}

fn with_unit(channel: &Type, number: String) -> String {
    match channel.unit {
        "" => number,
        unit => format!("{number} {unit}"),
    }
}

/// `numerator`/`denominator` steps, of which a unit has ten to the power of `decimals`, to `decimals` and
/// `more` digits behind the point, halves away from zero; no zero has a sign.
pub fn fraction(numerator: i128, denominator: i128, decimals: usize, more: u32) -> String {
    let scaled = nearest(numerator * 10_i128.pow(more), denominator);
    decimal(scaled, decimals + more as usize)
}

/// The nearest whole number to a fraction, halves away from zero.
pub fn nearest(numerator: i128, denominator: i128) -> i128 {
    let magnitude = (2 * numerator.abs() + denominator) / (2 * denominator);
    magnitude * numerator.signum()
}

/// A whole number of units in the last of so many digits behind the point.
pub fn decimal(number: i128, digits: usize) -> String {
    let sign = if number < 0 { "-" } else { "" };
    let text = format!("{:0width$}", number.abs(), width = digits + 1);
    let (before, behind) = text.split_at(text.len() - digits);
    match digits {
        0 => format!("{sign}{before}"),
        _ => format!("{sign}{before}.{behind}"),
    }
}

#[cfg(test)]
mod tests {
    use super::{between, deviation, fraction, nearest, part, step, whole};
    use crate::types::{TYPES, of_tag};

    #[test]
    fn steps_in_their_units() {
        let of = |tag: &str| of_tag(tag.as_bytes()).expect("a tag");
        assert_eq!(whole(of("TMP"), 228), "22.8 °C");
        assert_eq!(whole(of("TMP"), -7), "-0.7 °C");
        assert_eq!(whole(of("CND"), 1_427), "1.427 µS/cm");
        assert_eq!(whole(of("CND"), 0), "0.000 µS/cm");
        assert_eq!(whole(of("PH"), 585), "5.85");
        assert_eq!(whole(of("ORP"), -2_000), "-2000 mV");
        assert_eq!(part(of("TOC"), 97, 2), "48.5 ppb");
        assert_eq!(deviation(of("TMP"), 5, 2), "+0.25 °C");
        assert_eq!(deviation(of("TMP"), -5, 2), "-0.25 °C");
        assert_eq!(deviation(of("ORP"), 0, 3), "+0.0 mV");
        assert_eq!(deviation(of("ORP"), -1, 65_536), "+0.0 mV");
        assert_eq!(between(of("TMP"), -5, 12, 0), "-0.5 to 1.2 °C");
        assert_eq!(between(of("PH"), 5_851, 5_999, 1), "5.851 to 5.999");
        assert_eq!(
            TYPES.map(|known| step(&known))[3..5],
            ["0.001 µS/cm", "0.1 °C"]
        );
    }

    #[test]
    fn fractions_round_halves_away_from_zero_and_have_no_negative_zero() {
        assert_eq!(
            [-3, -2, -1, 1, 2, 3].map(|half| nearest(half, 2)),
            [-2, -1, -1, 1, 1, 2]
        );
        assert_eq!(fraction(-1, 65_536, 1, 1), "0.00");
        assert_eq!(fraction(-65_535, 65_536, 0, 1), "-1.0");
    }
}
