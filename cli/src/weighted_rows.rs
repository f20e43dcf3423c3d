//! The rows that carry weight, and the ball without each of the heaviest: a mistyped value shows as a row
//! without which the ball is much smaller.

use crate::columns::{Side, aligned};
use crate::distances::farthest_channel;
use crate::examined::Reference;
use crate::failure::Failure;
use crate::show::{BUDGET, Shown, not_drawn};
use crate::{shown, types, units};
use cundarivo::TOTAL;
use std::cmp::Reverse;

/// How many rows are taken away in turn.
const HEAVIEST: usize = 16;

const HEADING: [&str; 7] = [
    "row",
    "label",
    "weight",
    "radius without it",
    "farthest in",
    "below detection",
    "",
];
const SIDES: [Side; 7] = [
    Side::Right,
    Side::Left,
    Side::Right,
    Side::Right,
    Side::Left,
    Side::Left,
    Side::Left,
];

pub fn section(shown: &Shown<'_>) -> Result<String, Failure> {
    let reference = &shown.reference;
    let drawn = match shown.record {
        None => shown.envelope.figures.scaled_squared_radius,
        Some(_) => radius_of(&reference.table, reference.m, reference.n)?,
    };
    let rows = heaviest_first(&shown.envelope.weights);
    let mut lines = vec![HEADING.map(str::to_string).to_vec()];
    let mut marked = String::new();
    for (place, &row) in rows.iter().enumerate() {
        let without = match place < HEAVIEST && reference.m > 1 {
            true => Some(radius_without(reference, row)?),
            false => None,
        };
        let is_marked = without.is_some_and(|without| stands_out(reference.m, without, drawn));
        lines.push(line(shown, row, without, is_marked));
        if is_marked {
            marked += &question(reference, row);
        }
    }
    Ok(introduction(shown, rows.len(), drawn) + &aligned(&lines, &SIDES) + &marked)
}

fn introduction(shown: &Shown<'_>, rows: usize, drawn: u64) -> String {
    let mut text = match rows {
        1 => "1 row carries weight.".to_string(),
        _ => format!("{rows} rows carry weight, heaviest first."),
    };
    if shown.reference.m == 1 {
        text += " It is the only row: no ball is left without it.";
    } else if rows > HEAVIEST {
        text += &format!(" The ball is drawn without each of the first {HEAVIEST}.");
    }
    if drawn != shown.envelope.figures.scaled_squared_radius {
        text += &format!(
            " Drawn now with every row the radius is {}.",
            units::radius(drawn)
        );
    }
    text + "\n"
}

/// The rows of weight above 0, counted from 0; of equal weights the first row comes first.
fn heaviest_first(weights: &[u32]) -> Vec<usize> {
    let mut rows: Vec<usize> = (0..weights.len()).filter(|&row| weights[row] > 0).collect();
    rows.sort_by_key(|&row| (Reverse(weights[row]), row));
    rows
}

/// M of the ball that is drawn round rows.
fn radius_of(table: &[i32], m: usize, n: usize) -> Result<u64, Failure> {
    let drawing = cundarivo::draw(table, m, n, BUDGET).map_err(|_| not_drawn())?;
    Ok(drawing.scaled_squared_radius)
}

/// M of the ball that is drawn round the other rows.
fn radius_without(reference: &Reference<'_>, row: usize) -> Result<u64, Failure> {
    let mut table = reference.table.clone();
    table.drain(row * reference.n..(row + 1) * reference.n);
    radius_of(&table, reference.m - 1, reference.n)
}

fn line(shown: &Shown<'_>, row: usize, without: Option<u64>, is_marked: bool) -> Vec<String> {
    let (reference, envelope) = (&shown.reference, &shown.envelope);
    let centre = &envelope.figures.scaled_centre;
    let (channel, place) = farthest_channel(reference.row(row), centre);
    let kind = types::of_code(reference.codes[channel]);
    let name = types::channel_name(&reference.codes, channel);
    let deviation = units::deviation(kind, place, TOTAL.into());
    vec![
        (row + 1).to_string(),
        shown::escaped(reference.label(row)),
        share(envelope.weights[row]),
        without.map_or("-".to_string(), units::radius),
        format!("{name} {deviation}"),
        below_detection(reference, row),
        if is_marked { "LOOK AT THIS ROW" } else { "" }.to_string(),
    ]
}

/// Whether the radius without a row is less than half: four times its square is less. Of two rows neither
/// stands out, since without either of them the radius is 0.
fn stands_out(m: usize, without: u64, drawn: u64) -> bool {
    m > 2 && 4 * u128::from(without) < u128::from(drawn)
}

fn question(reference: &Reference<'_>, row: usize) -> String {
    format!(
        "Without row {}, {}, the radius is less than half: is one of its values mistyped?\n",
        row + 1,
        shown::escaped(reference.label(row))
    )
}

/// A weight as a share of D, to the nearest hundredth of a percent.
fn share(weight: u32) -> String {
    match units::nearest(10_000 * i128::from(weight), TOTAL.into()) {
        0 => "<0.01%".to_string(),
        hundredths => format!("{}%", units::decimal(hundredths, 2)),
    }
}

/// The values of a row that were below detection, as they are written, such as `TOC <10`.
fn below_detection(reference: &Reference<'_>, row: usize) -> String {
    let fields = reference.below_detection(row).into_iter();
    let fields = fields.map(|(channel, field)| {
        let name = types::channel_name(&reference.codes, channel);
        format!("{name} {}", shown::escaped(field))
    });
    let fields: Vec<String> = fields.collect();
    match fields.is_empty() {
        true => "-".to_string(),
        false => fields.join(", "),
    }
}

#[cfg(test)]
mod tests {
    use super::{heaviest_first, share, stands_out};

    #[test]
    fn the_heaviest_rows_come_first() {
        assert_eq!(heaviest_first(&[0, 5, 9, 5, 0, 9]), [2, 5, 1, 3]);
        assert_eq!(heaviest_first(&[65_536]), [0]);
    }

    #[test]
    fn weights_are_shares() {
        assert_eq!(share(65_536), "100.00%");
        assert_eq!(share(32_768), "50.00%");
        assert_eq!(share(1), "<0.01%");
        assert_eq!(share(4), "0.01%");
    }

    #[test]
    fn a_row_is_marked_below_half_the_radius() {
        assert!(stands_out(3, 24, 97));
        assert!(!stands_out(3, 25, 100));
        assert!(!stands_out(3, 0, 0));
        assert!(stands_out(3, 0, 1));
        assert!(!stands_out(2, 0, 1));
        assert!(!stands_out(256, u64::MAX, u64::MAX));
    }
}
