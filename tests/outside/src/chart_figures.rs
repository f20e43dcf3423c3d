//! Figures for charts and the panel: X near whole and half steps, M near squares, each often at an
//! end of its limits; pairs of channels; and channels outside 1 to n.

use crate::envelopes;
use crate::random::Random;
use crate::reading_texts;
use crate::readings::{CENTRE_LIMIT, DISTANCE_LIMIT, EnvelopeFigures};
use crate::rules::TOTAL;

/// The largest whole number whose square is within the limit on M.
pub const ROOT_LIMIT: u64 = 1_482_910_400;
/// The most steps of a coordinate of the centre.
const STEP_LIMIT: i32 = 4_000;
/// How far X is at most from what it is near, where it is beside a whole or a half step.
const BESIDE: i32 = 3;

/// Distances of X from zero at which an answer changes, or is at its limit.
const CENTRE_EDGES: [i64; 15] = [
    0,
    1,
    2,
    32_767,
    32_768,
    32_769,
    65_535,
    65_536,
    65_537,
    98_303,
    98_304,
    98_305,
    CENTRE_LIMIT - 32_768,
    CENTRE_LIMIT - 1,
    CENTRE_LIMIT,
];

/// Roots of squares: about D, where binary64 ceases to hold every square, about 2^30, that of the
/// farthest row of one channel, and the last within the limit.
const ROOT_EDGES: [u64; 15] = [
    255,
    256,
    65_535,
    65_536,
    65_537,
    327_680,
    94_906_264,
    94_906_265,
    94_906_266,
    94_906_267,
    (1 << 30) - 1,
    1 << 30,
    (1 << 30) + 1,
    524_288_000,
    ROOT_LIMIT,
];

/// X at the edges, on both sides of zero.
pub fn centre_edges() -> Vec<i64> {
    let below = CENTRE_EDGES[1..].iter().map(|place| -place);
    CENTRE_EDGES.into_iter().chain(below).collect()
}

/// M at the edges: the small ones, squares and the numbers beside them, and the limit.
pub fn radius_edges() -> Vec<u64> {
    let mut edges: Vec<u64> = (0..=200).collect();
    edges.extend(ROOT_EDGES.iter().flat_map(|root| beside(root * root)));
    edges.extend([DISTANCE_LIMIT - 1, DISTANCE_LIMIT]);
    edges
}

/// A number above 0 with the two beside it.
fn beside(number: u64) -> [u64; 3] {
    [number - 1, number, number + 1]
}

/// Where X is.
#[derive(Clone, Copy, Debug, PartialEq, Eq)]
pub enum Place {
    Zero,
    Whole,
    BesideWhole,
    Half,
    BesideHalf,
    Limit,
    Edge,
    Any,
}

pub const PLACES: [Place; 8] = [
    Place::Zero,
    Place::Whole,
    Place::BesideWhole,
    Place::Half,
    Place::BesideHalf,
    Place::Limit,
    Place::Edge,
    Place::Any,
];

/// X within its limits.
pub fn place(random: &mut Random, kind: Place) -> i64 {
    let total = TOTAL as i64;
    let whole = total * i64::from(random.between(-STEP_LIMIT, STEP_LIMIT));
    let half = total * i64::from(random.between(-STEP_LIMIT, STEP_LIMIT - 1)) + total / 2;
    let aside = i64::from(random.between(1, BESIDE)) * random.pick(&[-1, 1]);
    let place = match kind {
        Place::Zero => 0,
        Place::Whole => whole,
        Place::BesideWhole => whole + aside,
        Place::Half => half,
        Place::BesideHalf => half + aside,
        Place::Limit => random.pick(&[-CENTRE_LIMIT, CENTRE_LIMIT]),
        Place::Edge => random.pick(&centre_edges()),
        Place::Any => random.below(2 * CENTRE_LIMIT as u64 + 1) as i64 - CENTRE_LIMIT,
    };
    place.clamp(-CENTRE_LIMIT, CENTRE_LIMIT)
}

/// What M is.
#[derive(Clone, Copy, Debug, PartialEq, Eq)]
pub enum Radius {
    Zero,
    Small,
    Square,
    OneBelowSquare,
    OneAboveSquare,
    NearLimit,
    Edge,
    Any,
}

pub const RADII: [Radius; 8] = [
    Radius::Zero,
    Radius::Small,
    Radius::Square,
    Radius::OneBelowSquare,
    Radius::OneAboveSquare,
    Radius::NearLimit,
    Radius::Edge,
    Radius::Any,
];

/// M within its limits.
pub fn radius(random: &mut Random, kind: Radius) -> u64 {
    // Roots of every size.
    let root = 1 + (random.below(ROOT_LIMIT) >> random.below(31));
    match kind {
        Radius::Zero => 0,
        Radius::Small => 1 + random.below(100),
        Radius::Square => root * root,
        Radius::OneBelowSquare => root * root - 1,
        Radius::OneAboveSquare => root * root + 1,
        Radius::NearLimit => DISTANCE_LIMIT - random.below(4_000_000_000),
        Radius::Edge => random.pick(&radius_edges()),
        Radius::Any => random.below(DISTANCE_LIMIT + 1),
    }
}

/// Figures within the limits, with what their X and M are.
#[derive(Clone, Debug)]
pub struct ChartFigures {
    pub figures: EnvelopeFigures,
    /// Of each of the n channels.
    pub places: Vec<Place>,
    pub radius: Radius,
}

/// Figures of any types, with places past n that do not count.
pub fn any(random: &mut Random) -> ChartFigures {
    let types = reading_texts::types(random);
    let mut figures = envelopes::any(random, &types);
    let places: Vec<Place> = types.iter().map(|_| random.pick(&PLACES)).collect();
    for (own, &kind) in figures.scaled_centre.iter_mut().zip(&places) {
        *own = place(random, kind);
    }
    let kind = random.pick(&RADII);
    figures.scaled_squared_radius = radius(random, kind);
    ChartFigures {
        figures,
        places,
        radius: kind,
    }
}

/// Two channels of n, in one of four the same.
pub fn channels(random: &mut Random, n: usize) -> (usize, usize) {
    let horizontal = 1 + random.index(n);
    let vertical = 1 + random.index(n);
    let same = random.once_in(4);
    (horizontal, if same { horizontal } else { vertical })
}

/// A channel outside 1 to n: refusal 8 is owed.
#[derive(Clone, Copy, Debug, PartialEq, Eq)]
pub enum ChannelFault {
    Zero,
    OneAbove,
    /// Up to 20 above n, where places past n can stand.
    Above,
    /// As large as a channel can be, or one within the limits in 8, 16 or 32 bits.
    Largest,
}

pub const CHANNEL_FAULTS: [ChannelFault; 4] = [
    ChannelFault::Zero,
    ChannelFault::OneAbove,
    ChannelFault::Above,
    ChannelFault::Largest,
];

pub fn channel_outside(random: &mut Random, n: usize, fault: ChannelFault) -> usize {
    let own = 1 + random.index(n);
    match fault {
        ChannelFault::Zero => 0,
        ChannelFault::OneAbove => n + 1,
        ChannelFault::Above => n + 1 + random.index(20),
        ChannelFault::Largest => random.pick(&envelopes::largest_counts(own)),
    }
}
