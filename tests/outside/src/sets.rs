//! Reference sets: of every size within the limits, of shapes that are hard for the moves, and
//! damaged so that one limit is just broken.

use crate::random::Random;
use crate::rules::{self, CHANNEL_LIMIT, COORDINATE_LIMIT, ROW_LIMIT, Vector};

/// Rows as they are lent to a call: the first m·n of `places` count.
#[derive(Clone, Debug, PartialEq, Eq)]
pub struct Set {
    pub places: Vec<i32>,
    pub m: usize,
    pub n: usize,
}

impl Set {
    /// The rows of a set within the limits.
    pub fn rows(&self) -> Vec<Vector> {
        rules::rows_within_limits(&self.places, self.m, self.n).expect("a set within the limits")
    }
}

#[derive(Clone, Copy, Debug, PartialEq, Eq)]
pub enum Shape {
    Uniform,
    /// Coordinates from -2 to 2: many equal distances.
    Tiny,
    Clustered,
    Collinear,
    Equal,
    TwoValues,
    /// Each coordinate at a limit.
    Extreme,
    /// Rows near a sphere, rounded to whole places.
    Sphere,
    /// One row with its places exchanged and their signs changed: exactly on a sphere.
    Exchanged,
}

pub const SHAPES: [Shape; 9] = [
    Shape::Uniform,
    Shape::Tiny,
    Shape::Clustered,
    Shape::Collinear,
    Shape::Equal,
    Shape::TwoValues,
    Shape::Extreme,
    Shape::Sphere,
    Shape::Exchanged,
];

/// Row and channel counts: most sets are small, some are full.
pub fn size(random: &mut Random) -> (usize, usize) {
    let n = 1 + random.index(CHANNEL_LIMIT);
    match random.below(200) {
        0..160 => (1 + random.index(12), n),
        160..194 => (1 + random.index(48), n),
        194..196 => (1 + random.index(ROW_LIMIT), n),
        196..198 => (ROW_LIMIT - random.index(2), n),
        _ => (ROW_LIMIT, CHANNEL_LIMIT),
    }
}

pub fn set(random: &mut Random, shape: Shape, m: usize, n: usize) -> Set {
    let limit = COORDINATE_LIMIT;
    let places = match shape {
        Shape::Uniform => within(random, m * n, limit),
        Shape::Tiny => within(random, m * n, 2),
        Shape::Clustered => clustered(random, m, n),
        Shape::Collinear => collinear(random, m, n),
        Shape::Equal => within(random, n, limit).repeat(m),
        Shape::TwoValues => two_values(random, m, n),
        Shape::Extreme => (0..m * n).map(|_| random.pick(&[-limit, limit])).collect(),
        Shape::Sphere => sphere(random, m, n),
        Shape::Exchanged => exchanged(random, m, n),
    };
    Set { places, m, n }
}

/// A set of any shape, of at most 12 rows.
pub fn small_set(random: &mut Random) -> Set {
    let shape = random.pick(&SHAPES);
    let (m, n) = (1 + random.index(12), 1 + random.index(CHANNEL_LIMIT));
    set(random, shape, m, n)
}

/// `count` places, each from -`limit` to `limit`.
fn within(random: &mut Random, count: usize, limit: i32) -> Vec<i32> {
    (0..count).map(|_| random.between(-limit, limit)).collect()
}

fn clustered(random: &mut Random, m: usize, n: usize) -> Vec<i32> {
    let spread = random.between(1, 200);
    let clusters = 1 + random.index(4);
    let centres = within(random, clusters * n, COORDINATE_LIMIT - spread);
    let mut places = Vec::with_capacity(m * n);
    for _ in 0..m {
        let cluster = random.index(clusters);
        let centre = &centres[cluster * n..][..n];
        places.extend(centre.iter().map(|c| c + random.between(-spread, spread)));
    }
    places
}

/// Rows at whole steps from one row along one direction: 1,000 + 1,000 · 3 keeps to the limit.
fn collinear(random: &mut Random, m: usize, n: usize) -> Vec<i32> {
    let start = within(random, n, 1_000);
    let direction = within(random, n, 3);
    let reach = random.pick(&[1, 10, 1_000]);
    let mut places = Vec::with_capacity(m * n);
    for _ in 0..m {
        let steps = random.between(-reach, reach);
        places.extend(start.iter().zip(&direction).map(|(s, d)| s + steps * d));
    }
    places
}

fn two_values(random: &mut Random, m: usize, n: usize) -> Vec<i32> {
    let limit = random.pick(&[1, 50, COORDINATE_LIMIT]);
    let values = within(random, 2 * n, limit);
    (0..m)
        .flat_map(|_| values[random.index(2) * n..][..n].to_vec())
        .collect()
}

fn sphere(random: &mut Random, m: usize, n: usize) -> Vec<i32> {
    let radius = f64::from(random.between(1, 2_000));
    let centre = within(random, n, 2_000 - 1);
    let mut places = Vec::with_capacity(m * n);
    for _ in 0..m {
        // A sum of six fractions is close to normal, so that directions are close to even.
        let towards: Vec<f64> = (0..n)
            .map(|_| (0..6).map(|_| random.fraction() - 0.5).sum())
            .collect();
        let length = towards.iter().map(|part| part * part).sum::<f64>().sqrt();
        let scale = if length > 0.0 { radius / length } else { 0.0 };
        let place = |(c, part): (&i32, &f64)| c + (part * scale).round() as i32;
        places.extend(centre.iter().zip(&towards).map(place));
    }
    places
}

fn exchanged(random: &mut Random, m: usize, n: usize) -> Vec<i32> {
    let limit = random.pick(&[3, 100, COORDINATE_LIMIT]);
    let mut row = within(random, n, limit);
    let mut places = Vec::with_capacity(m * n);
    for _ in 0..m {
        row.swap(random.index(n), random.index(n));
        let changed = random.index(n);
        row[changed] = -row[changed];
        places.extend(&row);
    }
    places
}

/// One change to a set. All but the last two break a limit, and refusal 8 is owed.
#[derive(Clone, Copy, Debug, PartialEq, Eq, PartialOrd, Ord)]
pub enum Damage {
    NoChannel,
    NineChannels,
    NoRow,
    TooManyRows,
    CoordinateAbove,
    CoordinateBelow,
    FurthestCoordinate,
    RowsShort,
    NoPlaces,
    /// m is 2^61 and n is 8, whose product is 0 in 64 bits.
    WrappingProduct,
    LargestCounts,
    /// A coordinate above the limit in the first place that does not count: accepted.
    CoordinatePast,
    /// More places than count, all of them outside the limits: accepted.
    RowsLong,
}

pub const DAMAGES: [Damage; 13] = [
    Damage::NoChannel,
    Damage::NineChannels,
    Damage::NoRow,
    Damage::TooManyRows,
    Damage::CoordinateAbove,
    Damage::CoordinateBelow,
    Damage::FurthestCoordinate,
    Damage::RowsShort,
    Damage::NoPlaces,
    Damage::WrappingProduct,
    Damage::LargestCounts,
    Damage::CoordinatePast,
    Damage::RowsLong,
];

/// The damages by which a set is refused.
pub const REFUSED: &[Damage] = DAMAGES.split_at(11).0;
/// Those of them that change the places or m alone, but for the largest counts.
pub const REFUSED_ROWS: &[Damage] = REFUSED.split_at(9).0.split_at(2).1;

pub fn damage(random: &mut Random, set: &mut Set, damage: Damage) {
    let counted = set.places.len();
    let above = COORDINATE_LIMIT + 1;
    match damage {
        Damage::NoChannel => set.n = 0,
        Damage::NineChannels => resize(random, set, set.m, CHANNEL_LIMIT + 1),
        Damage::NoRow => set.m = 0,
        Damage::TooManyRows => resize(random, set, ROW_LIMIT + 1, set.n),
        Damage::CoordinateAbove => set.places[random.index(counted)] = above,
        Damage::CoordinateBelow => set.places[random.index(counted)] = -above,
        Damage::FurthestCoordinate => {
            set.places[random.index(counted)] = random.pick(&[i32::MIN, i32::MAX]);
        }
        Damage::RowsShort => set.places.truncate(counted - 1),
        Damage::NoPlaces => set.places.clear(),
        Damage::WrappingProduct => (set.m, set.n) = (1 << 61, 8),
        Damage::LargestCounts => (set.m, set.n) = random.pick(&largest_counts()),
        Damage::CoordinatePast => set.places.push(random.pick(&[-above, above])),
        Damage::RowsLong => {
            let more = 1 + random.index(40);
            set.places.extend(vec![i32::MIN; more]);
        }
    }
}

/// The set takes other counts, with as many places as these ask for.
fn resize(random: &mut Random, set: &mut Set, m: usize, n: usize) {
    (set.m, set.n) = (m, n);
    set.places = within(random, m * n, COORDINATE_LIMIT);
}

/// Counts whose product does not fit in 64 bits, or of which one is as large as it can be.
fn largest_counts() -> [(usize, usize); 5] {
    let most = usize::MAX;
    [
        (most, most),
        (most, 1),
        (1, most),
        (1 << 63, 2),
        (8, 1 << 61),
    ]
}
