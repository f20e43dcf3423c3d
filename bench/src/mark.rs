//! Chart and panel in plain Rust, with the root in three ways: by the standard library's root of whole
//! numbers, by that of binary64 with its error put right, and by bisection.

use crate::verdict::Figures;
use cundarivo::{Mark, Point, Refusal};

const TOTAL: i64 = 65_536;
/// The root of the largest M within the limits.
const ROOT_LIMIT: u64 = 1_482_910_401;
const OUTSIDE_LIMITS: Refusal = Refusal { number: 8, line: 0 };
const TOO_SHORT: Refusal = Refusal {
    number: 13,
    line: 0,
};

/// The mark in the chart of two channels, counted from 1, with this root; refusal 8.
pub fn chart(
    root: impl Fn(u64) -> u64,
    figures: &Figures<'_>,
    horizontal: usize,
    vertical: usize,
) -> Result<Mark, Refusal> {
    let channels = 1..=figures.n;
    if !figures.within_limits() || !channels.contains(&horizontal) || !channels.contains(&vertical)
    {
        return Err(OUTSIDE_LIMITS);
    }
    let coordinate = |channel: usize| figures.scaled_centre[channel - 1] as f64 / TOTAL as f64;
    let centre = Point {
        horizontal: coordinate(horizontal),
        vertical: coordinate(vertical),
    };
    Ok(match figures.scaled_squared_radius {
        0 => Mark::Dot(centre),
        square => Mark::Disc {
            centre,
            radius: root(square) as f64 / TOTAL as f64,
        },
    })
}

/// The smallest whole number whose square is at least this, by `u64::isqrt`.
pub fn whole_root(square: u64) -> u64 {
    let root = square.isqrt();
    root + u64::from(root * root < square)
}

/// The same by the root of binary64, which can be one off for squares above 2^53.
pub fn binary64_root(square: u64) -> u64 {
    let mut root = (square as f64).sqrt() as u64;
    while root * root < square {
        root += 1;
    }
    while root > 0 && (root - 1) * (root - 1) >= square {
        root -= 1;
    }
    root
}

/// The same by bisection.
pub fn bisected_root(square: u64) -> u64 {
    let (mut low, mut high) = (0, ROOT_LIMIT);
    while low < high {
        let middle = (low + high) / 2;
        if middle * middle < square {
            low = middle + 1;
        } else {
            high = middle;
        }
    }
    low
}

/// The centre to the nearest whole step, halves away from zero; refusals 8 and 13.
pub fn panel(figures: &Figures<'_>, steps: &mut [i32]) -> Result<(), Refusal> {
    if !figures.within_limits() {
        return Err(OUTSIDE_LIMITS);
    }
    let steps = steps.get_mut(..figures.n).ok_or(TOO_SHORT)?;
    for (step, &place) in steps.iter_mut().zip(figures.scaled_centre) {
        let nearest = (place.abs() + TOTAL / 2) / TOTAL;
        *step = (place.signum() * nearest) as i32;
    }
    Ok(())
}
