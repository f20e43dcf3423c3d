//! The figures of envelopes: drawn from and checked against random rows, arbitrary ones within the
//! limits and at them, and with one figure just outside.

use crate::cases;
use crate::random::Random;
use crate::readings::{self, CENTRE_LIMIT, DISTANCE_LIMIT, EnvelopeFigures};
use crate::reference::{self, ChannelType};
use crate::rules::{self, BUDGET_LIMIT, CHANNEL_LIMIT, Figures, TOTAL};
use crate::sets::Set;
use crate::texts::Draft;

/// The most rows of a drawn or checked envelope, and the most moves of its drawing.
const ROWS: usize = 8;
const MOVES: u64 = 40;

/// Rows of a reference text, with the figures of an envelope drawn from or checked against them.
#[derive(Clone, Debug)]
pub struct Fitted {
    pub reference: Draft,
    pub figures: EnvelopeFigures,
}

/// The rows of a reference text as a set.
pub fn set_of(reference: &Draft) -> Set {
    Set {
        places: reference.table.clone(),
        m: reference.rows.len(),
        n: reference.types.len(),
    }
}

/// A reference text of few rows.
fn few_rows(random: &mut Random) -> Draft {
    let (m, n) = (1 + random.index(ROWS), 1 + random.index(CHANNEL_LIMIT));
    Draft::new(random, m, n)
}

pub fn drawn(random: &mut Random) -> Fitted {
    let reference = few_rows(random);
    let drawing = draw(random, &set_of(&reference));
    let figures = lent(random, &reference.types, &drawing.figures, drawing.moves);
    Fitted { reference, figures }
}

/// The moves of an envelope whose weights were checked are any within the limit.
pub fn checked(random: &mut Random) -> Fitted {
    let reference = few_rows(random);
    let set = set_of(&reference);
    let weights = accepted_weights(random, &set);
    let figures = rules::check(&set.places, set.m, set.n, &weights).expect("weights that sum to D");
    let moves = any_moves(random);
    let figures = lent(random, &reference.types, &figures, moves);
    Fitted { reference, figures }
}

/// Weights that the check accepts, of any kind.
pub fn accepted_weights(random: &mut Random, set: &Set) -> Vec<u32> {
    let kind = cases::accepted_weighting(random);
    let drawn = draw(random, set).weights;
    cases::weights(random, set, &drawn, kind)
}

fn draw(random: &mut Random, set: &Set) -> rules::Drawing {
    let budget = random.below(MOVES + 1) as u32;
    rules::draw(&set.places, set.m, set.n, budget).expect("rows within the limits")
}

/// Figures of the rules as they are lent.
pub fn lent(
    random: &mut Random,
    types: &[ChannelType],
    figures: &Figures,
    moves: u32,
) -> EnvelopeFigures {
    let mut given = EnvelopeFigures::new(types, figures, moves);
    add_places(random, &mut given);
    given
}

/// Places past n, which do not count: none, or up to 12 of any numbers.
fn add_places(random: &mut Random, figures: &mut EnvelopeFigures) {
    for _ in 0..random.pick(&[0, 0, 1, 7, 12]) {
        figures.types.push(random.number() as u8);
    }
    for _ in 0..random.pick(&[0, 0, 1, 7, 12]) {
        figures.scaled_centre.push(random.number() as i64);
    }
}

/// Any figures within the limits, each often at an end of them. L can be above M.
pub fn any(random: &mut Random, types: &[ChannelType]) -> EnvelopeFigures {
    let mut figures = EnvelopeFigures {
        n: types.len(),
        types: reference::codes(types),
        scaled_centre: types.iter().map(|_| any_centre(random)).collect(),
        scaled_squared_radius: any_distance(random),
        scaled_lower_bound: any_distance(random),
        settled: random.index(2) as u32,
        moves: any_moves(random),
    };
    add_places(random, &mut figures);
    figures
}

fn any_centre(random: &mut Random) -> i64 {
    let total = TOTAL as i64;
    match random.below(8) {
        0 => CENTRE_LIMIT,
        1 => -CENTRE_LIMIT,
        2 => CENTRE_LIMIT - 1,
        3 => 1 - CENTRE_LIMIT,
        4 => 0,
        5 => total * i64::from(random.between(-4_000, 4_000)),
        _ => random.below(2 * CENTRE_LIMIT as u64 + 1) as i64 - CENTRE_LIMIT,
    }
}

/// Numbers of every size as well as any number.
fn any_distance(random: &mut Random) -> u64 {
    match random.below(8) {
        0 => 0,
        1 => 1,
        2 => DISTANCE_LIMIT,
        3 => DISTANCE_LIMIT - 1,
        4..6 => random.below(DISTANCE_LIMIT + 1),
        _ => random.below(DISTANCE_LIMIT + 1) >> random.below(61),
    }
}

pub fn any_moves(random: &mut Random) -> u32 {
    match random.below(4) {
        0 => 0,
        1 => BUDGET_LIMIT,
        _ => random.below(u64::from(BUDGET_LIMIT) + 1) as u32,
    }
}

/// The figures with the M at which s of the row is M and so much more; nothing where that M is
/// outside its limits.
pub fn with_excess(
    figures: &EnvelopeFigures,
    row: &[i32],
    excess: i128,
) -> Option<EnvelopeFigures> {
    let (_, centre) = figures.within_limits().expect("figures within the limits");
    let radius = readings::scaled_squared_distance(row, &centre) - excess;
    let scaled_squared_radius = u64::try_from(radius).ok()?;
    (scaled_squared_radius <= DISTANCE_LIMIT).then(|| EnvelopeFigures {
        scaled_squared_radius,
        ..figures.clone()
    })
}

/// A figure outside its limits: refusal 8 is owed.
#[derive(Clone, Copy, Debug, PartialEq, Eq)]
pub enum FigureFault {
    NoChannel,
    NineChannels,
    /// As large as n can be, or the same n in 8, 16 or 32 bits.
    LargestCount,
    TypesShort,
    NoTypes,
    CentreShort,
    NoCentre,
    CodeZero,
    CodeNine,
    OtherCode,
    CentreAbove,
    CentreBelow,
    FurthestCentre,
    RadiusAbove,
    LargestRadius,
    BoundAbove,
    LargestBound,
    MovesAbove,
    MostMoves,
    SettledTwo,
    LargestSettled,
}

pub const FIGURE_FAULTS: [FigureFault; 21] = [
    FigureFault::NoChannel,
    FigureFault::NineChannels,
    FigureFault::LargestCount,
    FigureFault::TypesShort,
    FigureFault::NoTypes,
    FigureFault::CentreShort,
    FigureFault::NoCentre,
    FigureFault::CodeZero,
    FigureFault::CodeNine,
    FigureFault::OtherCode,
    FigureFault::CentreAbove,
    FigureFault::CentreBelow,
    FigureFault::FurthestCentre,
    FigureFault::RadiusAbove,
    FigureFault::LargestRadius,
    FigureFault::BoundAbove,
    FigureFault::LargestBound,
    FigureFault::MovesAbove,
    FigureFault::MostMoves,
    FigureFault::SettledTwo,
    FigureFault::LargestSettled,
];

/// Puts a fault into figures within the limits; one of a channel into this channel.
pub fn put(random: &mut Random, figures: &mut EnvelopeFigures, fault: FigureFault, channel: usize) {
    let n = figures.n;
    match fault {
        FigureFault::NoChannel => figures.n = 0,
        FigureFault::NineChannels => lend_nine(figures),
        FigureFault::LargestCount => figures.n = random.pick(&largest_counts(n)),
        FigureFault::TypesShort => figures.types.truncate(n - 1),
        FigureFault::NoTypes => figures.types.clear(),
        FigureFault::CentreShort => figures.scaled_centre.truncate(n - 1),
        FigureFault::NoCentre => figures.scaled_centre.clear(),
        FigureFault::CodeZero => figures.types[channel] = 0,
        FigureFault::CodeNine => figures.types[channel] = 9,
        FigureFault::OtherCode => figures.types[channel] = random.between(9, 255) as u8,
        FigureFault::CentreAbove => figures.scaled_centre[channel] = CENTRE_LIMIT + 1,
        FigureFault::CentreBelow => figures.scaled_centre[channel] = -CENTRE_LIMIT - 1,
        FigureFault::FurthestCentre => {
            figures.scaled_centre[channel] = random.pick(&[i64::MIN, i64::MAX]);
        }
        FigureFault::RadiusAbove => figures.scaled_squared_radius = DISTANCE_LIMIT + 1,
        FigureFault::LargestRadius => figures.scaled_squared_radius = u64::MAX,
        FigureFault::BoundAbove => figures.scaled_lower_bound = DISTANCE_LIMIT + 1,
        FigureFault::LargestBound => figures.scaled_lower_bound = u64::MAX,
        FigureFault::MovesAbove => figures.moves = BUDGET_LIMIT + 1,
        FigureFault::MostMoves => figures.moves = u32::MAX,
        FigureFault::SettledTwo => figures.settled = 2,
        FigureFault::LargestSettled => figures.settled = u32::MAX,
    }
}

/// Nine channels, of each a type and an X within the limits.
fn lend_nine(figures: &mut EnvelopeFigures) {
    let n = figures.n;
    figures.types.truncate(n);
    figures.scaled_centre.truncate(n);
    figures.n = CHANNEL_LIMIT + 1;
    figures.types.resize(figures.n, 1);
    figures.scaled_centre.resize(figures.n, 0);
}

/// As large as a count can be, or the same as n in 8, 16 or 32 bits.
pub fn largest_counts(n: usize) -> [usize; 6] {
    [
        usize::MAX,
        1 << 61,
        1 << 63,
        n + (1 << 32),
        n + (1 << 16),
        n + (1 << 8),
    ]
}
