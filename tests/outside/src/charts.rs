//! Chart and panel by the rules of document 01, in whole numbers and exact fractions: the radius by
//! the written method for roots, two decimal digits at a time, and the panel by comparing distances.

use crate::fractions::Fraction;
use crate::readings::EnvelopeFigures;
use crate::rules::{OUTSIDE_LIMITS, Refusal, TOTAL};

/// The coordinates of the centre in a chart.
#[derive(Clone, Copy, Debug, PartialEq, Eq)]
pub struct Point<Number> {
    pub horizontal: Number,
    pub vertical: Number,
}

#[derive(Clone, Copy, Debug, PartialEq, Eq)]
pub enum Mark<Number> {
    Dot(Point<Number>),
    Disc {
        centre: Point<Number>,
        radius: Number,
    },
}

impl<Number> Mark<Number> {
    /// The same mark with its numbers changed.
    pub fn map<Other>(self, change: impl Fn(Number) -> Other) -> Mark<Other> {
        let point = |point: Point<Number>| Point {
            horizontal: change(point.horizontal),
            vertical: change(point.vertical),
        };
        match self {
            Mark::Dot(centre) => Mark::Dot(point(centre)),
            Mark::Disc { centre, radius } => Mark::Disc {
                centre: point(centre),
                radius: change(radius),
            },
        }
    }
}

impl Mark<Fraction> {
    /// The mark in the bits of the binary64 numbers that equal its fractions.
    pub fn binary64(self) -> Mark<u64> {
        let bits = |fraction: Fraction| fraction.binary64().expect("a fraction of binary64");
        self.map(bits)
    }
}

/// The mark of an envelope in the chart of two channels, counted from 1; refusal 8.
pub fn chart(
    figures: &EnvelopeFigures,
    horizontal: usize,
    vertical: usize,
) -> Result<Mark<Fraction>, Refusal> {
    let (_, centre) = figures.within_limits()?;
    let place = |channel: usize| {
        let mut channels = (1..).zip(&centre);
        let own = channels.find(|&(number, _)| number == channel);
        own.map(|(_, &place)| over_total(place))
            .ok_or(OUTSIDE_LIMITS)
    };
    let centre = Point {
        horizontal: place(horizontal)?,
        vertical: place(vertical)?,
    };
    let squared = u128::from(figures.scaled_squared_radius);
    Ok(match squared {
        0 => Mark::Dot(centre),
        _ => Mark::Disc {
            centre,
            radius: over_total(root_above(squared) as i128),
        },
    })
}

/// What the panel shows of each of the n channels; refusal 8.
pub fn panel(figures: &EnvelopeFigures) -> Result<Vec<i32>, Refusal> {
    let (_, centre) = figures.within_limits()?;
    Ok(centre.into_iter().map(nearest_step).collect())
}

fn over_total(numerator: i128) -> Fraction {
    Fraction {
        numerator,
        denominator: TOTAL,
    }
}

/// The whole step nearest to X/D; of two at the same distance, the one farther from zero.
fn nearest_step(place: i128) -> i32 {
    let below = place.div_euclid(TOTAL);
    let [below, above] = [below, below + 1];
    let distance = |step: i128| (TOTAL * step - place).abs();
    let nearest = match (distance(below), distance(above)) {
        (lower, upper) if lower < upper => below,
        (lower, upper) if lower > upper => above,
        _ if below.abs() > above.abs() => below,
        _ => above,
    };
    i32::try_from(nearest).expect("X within its limits")
}

/// The smallest whole number whose square is at least this, by the written method: for each two
/// digits of the number the root gets one, the largest that the rest allows.
pub fn root_above(square: u128) -> u128 {
    let (mut root, mut rest) = (0, 0);
    for pair in digit_pairs(square) {
        rest = 100 * rest + pair;
        let taken = |digit: u128| (20 * root + digit) * digit;
        let digit = (0..10).rev().find(|&digit| taken(digit) <= rest);
        let digit = digit.expect("the digit 0 takes nothing");
        rest -= taken(digit);
        root = 10 * root + digit;
    }
    if rest == 0 { root } else { root + 1 }
}

/// The digits in twos from the right, the highest two first.
fn digit_pairs(mut number: u128) -> Vec<u128> {
    let mut pairs = Vec::new();
    while number > 0 {
        pairs.push(number % 100);
        number /= 100;
    }
    pairs.reverse();
    pairs
}
