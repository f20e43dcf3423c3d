//! The charts and panels that document 01 and the list of bad input name, with the answers that the
//! rules give, written down by hand: every fraction of D = 65,536 has at most 16 decimals, and none
//! is left out.
#![allow(clippy::excessive_precision)]

use crate::charts::{Mark, Point};
use crate::known_readings::{self, record, record_with_budget_1};
use crate::readings::EnvelopeFigures;
use crate::rules::{OUTSIDE_LIMITS, Refusal};

/// Figures by name and two channels, with the mark in their chart and what the panel shows.
#[derive(Clone, Debug)]
pub struct KnownChart {
    pub name: &'static str,
    pub figures: EnvelopeFigures,
    /// Horizontal and vertical.
    pub channels: (usize, usize),
    pub mark: Result<Mark<f64>, Refusal>,
    pub panel: Result<Vec<i32>, Refusal>,
}

/// The limit on M.
const MOST: u64 = 2_199_023_255_552_000_000;
/// The radius at that limit: the root 1,482,910,401 over D.
const MOST_RADIUS: f64 = 22_627.417_007_446_289_062_5;

/// One channel of TOC with this X and this M.
pub fn one_channel(scaled_centre: i64, scaled_squared_radius: u64) -> EnvelopeFigures {
    EnvelopeFigures {
        n: 1,
        types: vec![1],
        scaled_centre: vec![scaled_centre],
        scaled_squared_radius,
        scaled_lower_bound: 0,
        settled: 1,
        moves: 0,
    }
}

/// A channel of each type, with the centre at 1 to 8 steps, and a radius of 10 steps.
pub fn eight_channels() -> EnvelopeFigures {
    EnvelopeFigures {
        n: 8,
        types: (1..=8).collect(),
        scaled_centre: (1..=8).map(|step| 65_536 * step).collect(),
        ..one_channel(0, 429_496_729_600)
    }
}

fn dot(horizontal: f64, vertical: f64) -> Mark<f64> {
    Mark::Dot(Point {
        horizontal,
        vertical,
    })
}

fn disc(horizontal: f64, vertical: f64, radius: f64) -> Mark<f64> {
    let centre = Point {
        horizontal,
        vertical,
    };
    Mark::Disc { centre, radius }
}

fn marked(
    name: &'static str,
    figures: EnvelopeFigures,
    channels: (usize, usize),
    mark: Mark<f64>,
    steps: &[i32],
) -> KnownChart {
    KnownChart {
        name,
        figures,
        channels,
        mark: Ok(mark),
        panel: Ok(steps.to_vec()),
    }
}

/// The only channel on both axes.
fn of_one_channel(
    name: &'static str,
    figures: EnvelopeFigures,
    mark: Mark<f64>,
    step: i32,
) -> KnownChart {
    marked(name, figures, (1, 1), mark, &[step])
}

/// The record's figures with one of them changed.
fn changed(change: impl FnOnce(&mut EnvelopeFigures)) -> EnvelopeFigures {
    let mut figures = record();
    change(&mut figures);
    figures
}

/// Document 01's record and trial figures.
pub fn examples() -> Vec<KnownChart> {
    let of_record = |name, channels, horizontal, vertical| {
        let mark = disc(horizontal, vertical, 5.0);
        marked(name, record(), channels, mark, &[3, 4])
    };
    // M is 223,338,299,392, and the root 472,587.
    let budget_1 = disc(0.0, 4.0, 7.211_105_346_679_687_5);
    let rows_0_10 = one_channel(327_680, 107_374_182_400);
    let rows_0_1 = one_channel(32_768, 1_073_741_824);
    vec![
        of_record("record", (1, 2), 3.0, 4.0),
        of_record("record_exchanged", (2, 1), 4.0, 3.0),
        of_record("record_1_twice", (1, 1), 3.0, 3.0),
        of_record("record_2_twice", (2, 2), 4.0, 4.0),
        marked(
            "record_budget_1",
            record_with_budget_1(),
            (1, 2),
            budget_1,
            &[0, 4],
        ),
        of_one_channel("rows_0_10", rows_0_10, disc(5.0, 5.0, 5.0), 5),
        of_one_channel("rows_0_1", rows_0_1, disc(0.5, 0.5, 0.5), 1),
        of_one_channel("one_row_7", one_channel(458_752, 0), dot(7.0, 7.0), 7),
        of_one_channel("rows_5_5", one_channel(327_680, 0), dot(5.0, 5.0), 5),
    ]
}

/// X with what a chart and the panel show of it.
type Place = (&'static str, i64, f64, i32);

/// From zero up.
const PLACES_ABOVE: [Place; 15] = [
    ("x_0", 0, 0.0, 0),
    ("x_1", 1, 0.000_015_258_789_062_5, 0),
    ("x_2", 2, 0.000_030_517_578_125, 0),
    ("x_32767", 32_767, 0.499_984_741_210_937_5, 0),
    ("x_32768", 32_768, 0.5, 1),
    ("x_32769", 32_769, 0.500_015_258_789_062_5, 1),
    ("x_65535", 65_535, 0.999_984_741_210_937_5, 1),
    ("x_65536", 65_536, 1.0, 1),
    ("x_65537", 65_537, 1.000_015_258_789_062_5, 1),
    ("x_98303", 98_303, 1.499_984_741_210_937_5, 1),
    ("x_98304", 98_304, 1.5, 2),
    ("x_98305", 98_305, 1.500_015_258_789_062_5, 2),
    ("x_163840", 163_840, 2.5, 3),
    (
        "x_one_less",
        262_143_999,
        3_999.999_984_741_210_937_5,
        4_000,
    ),
    ("x_most", 262_144_000, 4_000.0, 4_000),
];

/// From zero down.
const PLACES_BELOW: [Place; 14] = [
    ("minus_1", -1, -0.000_015_258_789_062_5, 0),
    ("minus_2", -2, -0.000_030_517_578_125, 0),
    ("minus_32767", -32_767, -0.499_984_741_210_937_5, 0),
    ("minus_32768", -32_768, -0.5, -1),
    ("minus_32769", -32_769, -0.500_015_258_789_062_5, -1),
    ("minus_65535", -65_535, -0.999_984_741_210_937_5, -1),
    ("minus_65536", -65_536, -1.0, -1),
    ("minus_65537", -65_537, -1.000_015_258_789_062_5, -1),
    ("minus_98303", -98_303, -1.499_984_741_210_937_5, -1),
    ("minus_98304", -98_304, -1.5, -2),
    ("minus_98305", -98_305, -1.500_015_258_789_062_5, -2),
    ("minus_163840", -163_840, -2.5, -3),
    (
        "one_more",
        -262_143_999,
        -3_999.999_984_741_210_937_5,
        -4_000,
    ),
    ("least", -262_144_000, -4_000.0, -4_000),
];

fn dot_of(&(name, place, coordinate, step): &Place) -> KnownChart {
    let figures = one_channel(place, 0);
    of_one_channel(name, figures, dot(coordinate, coordinate), step)
}

pub fn dots_above() -> Vec<KnownChart> {
    PLACES_ABOVE.iter().map(dot_of).collect()
}

pub fn dots_below() -> Vec<KnownChart> {
    PLACES_BELOW.iter().map(dot_of).collect()
}

/// M of one channel, with the radius.
type Radius = (&'static str, u64, f64);

/// The roots 1 to 4.
const SMALL_RADII: [Radius; 10] = [
    ("m_1", 1, 0.000_015_258_789_062_5),
    ("m_2", 2, 0.000_030_517_578_125),
    ("m_3", 3, 0.000_030_517_578_125),
    ("m_4", 4, 0.000_030_517_578_125),
    ("m_5", 5, 0.000_045_776_367_187_5),
    ("m_8", 8, 0.000_045_776_367_187_5),
    ("m_9", 9, 0.000_045_776_367_187_5),
    ("m_10", 10, 0.000_061_035_156_25),
    ("m_15", 15, 0.000_061_035_156_25),
    ("m_16", 16, 0.000_061_035_156_25),
];

/// The squares of 65,536, of 94,906,266, which is the first above 2^53, and of 1,482,910,400, which
/// is the last within the limit, each with the numbers beside it.
const SQUARES: [Radius; 11] = [
    ("d_less_1", 4_294_967_295, 1.0),
    ("d_squared", 4_294_967_296, 1.0),
    ("d_more_1", 4_294_967_297, 1.000_015_258_789_062_5),
    (
        "wide_less_1",
        9_007_199_326_062_755,
        1_448.154_693_603_515_625,
    ),
    (
        "wide_squared",
        9_007_199_326_062_756,
        1_448.154_693_603_515_625,
    ),
    (
        "wide_more_1",
        9_007_199_326_062_757,
        1_448.154_708_862_304_687_5,
    ),
    (
        "last_less_1",
        2_199_023_254_428_159_999,
        22_627.416_992_187_5,
    ),
    (
        "last_squared",
        2_199_023_254_428_160_000,
        22_627.416_992_187_5,
    ),
    ("last_more_1", 2_199_023_254_428_160_001, MOST_RADIUS),
    ("limit_less_1", MOST - 1, MOST_RADIUS),
    ("limit", MOST, MOST_RADIUS),
];

fn disc_of(&(name, square, radius): &Radius) -> KnownChart {
    let figures = one_channel(-65_536, square);
    of_one_channel(name, figures, disc(-1.0, -1.0, radius), -1)
}

pub fn small_radii() -> Vec<KnownChart> {
    SMALL_RADII.iter().map(disc_of).collect()
}

pub fn squares() -> Vec<KnownChart> {
    SQUARES.iter().map(disc_of).collect()
}

/// Pairs of channels that a chart can have.
pub fn channels() -> Vec<KnownChart> {
    let of_8 = |name, channels, horizontal, vertical| {
        let mark = disc(horizontal, vertical, 10.0);
        let steps = [1, 2, 3, 4, 5, 6, 7, 8];
        marked(name, eight_channels(), channels, mark, &steps)
    };
    vec![
        of_8("first_and_last", (1, 8), 1.0, 8.0),
        of_8("last_and_first", (8, 1), 8.0, 1.0),
        of_8("last_twice", (8, 8), 8.0, 8.0),
        of_8("first_twice", (1, 1), 1.0, 1.0),
        of_8("third_and_fourth", (3, 4), 3.0, 4.0),
    ]
}

/// Channels outside 1 to n, which the panel knows nothing of.
pub fn channels_outside() -> Vec<KnownChart> {
    let of = |name, figures, channels, steps: &[i32]| KnownChart {
        name,
        figures,
        channels,
        mark: Err(OUTSIDE_LIMITS),
        panel: Ok(steps.to_vec()),
    };
    let of_2 = |name, channels| of(name, record(), channels, &[3, 4]);
    let of_8 = |name, channels| of(name, eight_channels(), channels, &[1, 2, 3, 4, 5, 6, 7, 8]);
    let longer = |name, channels| {
        let figures = changed(|figures| {
            figures.types.extend([1; 7]);
            figures.scaled_centre.extend([0; 7]);
        });
        of(name, figures, channels, &[3, 4])
    };
    vec![
        of_2("horizontal_0", (0, 1)),
        of_2("vertical_0", (1, 0)),
        of_2("both_0", (0, 0)),
        of_2("horizontal_3_of_2", (3, 2)),
        of_2("vertical_3_of_2", (2, 3)),
        of_2("both_3_of_2", (3, 3)),
        of_2("horizontal_most", (usize::MAX, 1)),
        of_2("vertical_most", (1, usize::MAX)),
        of_2("both_most", (usize::MAX, usize::MAX)),
        of_2("horizontal_in_8_bits", ((1 << 8) + 1, 1)),
        of_2("vertical_in_8_bits", (1, (1 << 8) + 1)),
        of_2("horizontal_in_32_bits", ((1 << 32) + 1, 1)),
        of_2("vertical_in_32_bits", (1, (1 << 32) + 1)),
        of_2("horizontal_wraps", ((1 << 61) + 1, 1)),
        of_2("vertical_wraps", (1, (1 << 61) + 1)),
        longer("horizontal_past_n", (3, 1)),
        longer("vertical_past_n", (1, 3)),
        of_8("horizontal_9_of_8", (9, 8)),
        of_8("vertical_9_of_8", (8, 9)),
    ]
}

/// The figures outside their limits of the known readings.
pub fn figures_outside() -> Vec<KnownChart> {
    known_readings::figures_outside()
        .into_iter()
        .map(|known| KnownChart {
            name: known.name,
            figures: known.figures,
            channels: (1, 1),
            mark: Err(OUTSIDE_LIMITS),
            panel: Err(OUTSIDE_LIMITS),
        })
        .collect()
}

/// The record's figures with one of them at a limit, and with places that do not count.
pub fn figures_at_the_limits() -> Vec<KnownChart> {
    let of = |name, radius, change: fn(&mut EnvelopeFigures)| {
        let mark = disc(3.0, 4.0, radius);
        marked(name, changed(change), (1, 2), mark, &[3, 4])
    };
    vec![
        of("radius_limit", MOST_RADIUS, |figures| {
            figures.scaled_squared_radius = MOST;
        }),
        of("bound_limit", 5.0, |figures| {
            figures.scaled_lower_bound = MOST;
        }),
        of("bound_0", 5.0, |figures| figures.scaled_lower_bound = 0),
        of("moves_1000000", 5.0, |figures| figures.moves = 1_000_000),
        of("moves_0", 5.0, |figures| figures.moves = 0),
        of("settled_0", 5.0, |figures| figures.settled = 0),
        of("places_past_the_channels", 5.0, |figures| {
            figures.types.extend([0, 9, 255]);
            figures
                .scaled_centre
                .extend([262_144_001, i64::MIN, i64::MAX]);
        }),
    ]
}

/// Every list.
pub fn all() -> Vec<KnownChart> {
    [
        examples(),
        dots_above(),
        dots_below(),
        small_radii(),
        squares(),
        channels(),
        channels_outside(),
        figures_outside(),
        figures_at_the_limits(),
    ]
    .concat()
}
