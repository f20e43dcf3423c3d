//! `judge --explain`: a line for each reading in words and units, and the counts.

use crate::columns::{Side, aligned};
use crate::distances::{farthest_channel, share_above, share_below};
use crate::judged::Reading;
use crate::types;
use crate::words::{self, LABEL_LIMIT};
use crate::{shown, units};
use cundarivo::{Figures, Measured, TOTAL, Verdict};

const HEADING: [&str; 5] = ["line", "label", "verdict", "of radius", "most in"];
const SIDES: [Side; 6] = [
    Side::Right,
    Side::Left,
    Side::Left,
    Side::Right,
    Side::Left,
    Side::Left,
];

pub fn explained(figures: &Figures, readings: &[Reading<'_>]) -> String {
    let mut lines = vec![HEADING.map(str::to_string).to_vec()];
    let numbered = readings.iter().enumerate();
    lines.extend(numbered.map(|(index, reading)| line(figures, index + 1, reading)));
    aligned(&lines, &SIDES) + &counts(readings)
}

fn line(figures: &Figures, number: usize, reading: &Reading<'_>) -> Vec<String> {
    let mut cells = vec![number.to_string(), label(reading.first_field())];
    match &reading.measured {
        Ok(measured) => {
            let (channel, place) = farthest_channel(&measured.values, &figures.scaled_centre);
            let kind = types::of_code(figures.codes[channel]);
            cells.extend([
                word(&measured.verdict).to_string(),
                share(measured, figures.scaled_squared_radius),
                types::channel_name(&figures.codes, channel),
                units::deviation(kind, place, i128::from(TOTAL)),
            ]);
        }
        Err(refusal) => {
            let reason = words::refused_reading(*refusal, reading.line, &figures.codes);
            cells.extend(["TURNED BACK".to_string(), reason]);
        }
    }
    cells
}

fn word(verdict: &Verdict) -> &'static str {
    match verdict {
        Verdict::Quiet => "quiet",
        Verdict::Alarm { .. } => "ALARM",
    }
}

/// The distance as a share of the radius. Rounding takes no Quiet reading out of the ball and no Alarm
/// into it.
fn share(measured: &Measured, radius: u64) -> String {
    let distance = measured.scaled_squared_distance;
    let tenths = match (radius, measured.verdict) {
        (0, _) => return "radius is 0".to_string(),
        (_, Verdict::Quiet) => share_below(distance, radius),
        (_, Verdict::Alarm { .. }) => share_above(distance, radius),
    };
    format!("{}.{}%", tenths / 10, tenths % 10)
}

/// What a reading is told by.
fn label(field: &[u8]) -> String {
    match field.len() {
        0 => "''".to_string(),
        1..=LABEL_LIMIT => shown::escaped(field),
        _ => shown::escaped(&field[..LABEL_LIMIT]) + "...",
    }
}

fn counts(readings: &[Reading<'_>]) -> String {
    let quiet = readings.iter().filter(|reading| reading.is_quiet()).count();
    let turned_back = readings.iter().filter(|reading| reading.measured.is_err());
    let turned_back = turned_back.count();
    let all = readings.len();
    let alarms = all - quiet - turned_back;
    format!(
        "{all} {}: {quiet} quiet, {alarms} {}, {turned_back} turned back: {}\n",
        if all == 1 { "reading" } else { "readings" },
        if alarms == 1 { "alarm" } else { "alarms" },
        if quiet == all {
            "all quiet"
        } else {
            "not all quiet"
        },
    )
}

#[cfg(test)]
mod tests {
    use super::{label, share};
    use cundarivo::{Measured, Verdict};

    fn measured(verdict: Verdict, scaled_squared_distance: u64) -> Measured {
        Measured {
            verdict,
            scaled_squared_distance,
            values: Vec::new(),
        }
    }

    #[test]
    fn the_edge_of_the_ball_parts_quiet_from_alarm() {
        let quiet = |distance, radius| share(&measured(Verdict::Quiet, distance), radius);
        let alarm = |excess, radius: u64| {
            share(
                &measured(Verdict::Alarm { excess }, radius + excess),
                radius,
            )
        };
        for radius in [1_073_741_824, 107_374_182_400, 2_199_023_255_551_999_999] {
            assert_eq!(quiet(radius, radius), "100.0%");
            assert_eq!(quiet(radius - 1, radius), "99.9%");
            assert_eq!(alarm(1, radius), "100.1%");
            assert_eq!(quiet(0, radius), "0.0%");
        }
        assert_eq!(quiet(0, 0), "radius is 0");
        assert_eq!(alarm(1, 0), "radius is 0");
    }

    #[test]
    fn a_label_is_short_and_printable() {
        assert_eq!(label(b"LOOP-1"), "LOOP-1");
        assert_eq!(label(b""), "''");
        assert_eq!(label(b"ABCDEFGHIJKL"), "ABCDEFGHIJKL");
        assert_eq!(label(b"ABCDEFGHIJKLM"), "ABCDEFGHIJKL...");
        assert_eq!(label(b"\x1b[31m\n"), "\\x1b[31m\\x0a");
    }
}
