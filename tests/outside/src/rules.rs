//! The rules of document 01 for the ball, in integers of 128 bits.
//!
//! Nothing but the weights goes from move to move: every figure is computed from them anew.

/// D, the sum of the weights.
pub const TOTAL: i128 = 65_536;
pub const ROW_LIMIT: usize = 256;
pub const CHANNEL_LIMIT: usize = 8;
/// A coordinate lies from the negative of this to this.
pub const COORDINATE_LIMIT: i32 = 4_000;
pub const BUDGET_LIMIT: u32 = 1_000_000;

/// A refusal's number in the table of document 01, and the line at fault.
#[derive(Clone, Copy, Debug, PartialEq, Eq)]
pub struct Refusal {
    pub number: u32,
    pub line: u32,
}

pub const OUTSIDE_LIMITS: Refusal = without_line(8);
pub const BUDGET_TOO_LARGE: Refusal = without_line(9);
pub const WEIGHTS_DISAGREE: Refusal = without_line(12);
pub const BUFFER_TOO_SHORT: Refusal = without_line(13);

const fn without_line(number: u32) -> Refusal {
    Refusal { number, line: 0 }
}

/// Fills the first lent places with these numbers, and no other; refusal 13 where there are fewer.
pub fn hand_out<Number: Copy>(numbers: &[Number], lent: &mut [Number]) -> Result<(), Refusal> {
    let places = lent.get_mut(..numbers.len()).ok_or(BUFFER_TOO_SHORT)?;
    places.copy_from_slice(numbers);
    Ok(())
}

/// A row or a centre, a place a channel.
pub type Vector = Vec<i128>;

/// The figures of a set of weights.
#[derive(Clone, Debug, PartialEq, Eq)]
pub struct Figures {
    /// X, one place a channel.
    pub scaled_centre: Vector,
    /// M.
    pub scaled_squared_radius: i128,
    /// L.
    pub scaled_lower_bound: i128,
    pub settled: bool,
}

/// A drawing ends Settled when `figures.settled`, else Budget.
#[derive(Clone, Debug, PartialEq, Eq)]
pub struct Drawing {
    pub figures: Figures,
    pub weights: Vec<i128>,
    pub moves: u32,
}

/// The two rows of a move, counted from 0, with g and the squared distance between them.
#[derive(Clone, Copy, Debug, PartialEq, Eq)]
pub struct Pair {
    pub far: usize,
    pub near: usize,
    pub g: i128,
    pub squared_distance: i128,
}

impl Pair {
    pub fn settled(&self) -> bool {
        self.g <= self.squared_distance
    }

    /// t, for a pair that is not settled; its rows differ, so the divisor is above 0.
    pub fn amount(&self, weights: &[i128]) -> i128 {
        let wanted = (self.g + self.squared_distance - 1) / (2 * self.squared_distance);
        wanted.min(weights[self.near])
    }
}

/// The m rows of n channels that stand in the first m·n places, or refusal 8.
pub fn rows_within_limits(places: &[i32], m: usize, n: usize) -> Result<Vec<Vector>, Refusal> {
    if !(1..=CHANNEL_LIMIT).contains(&n) || !(1..=ROW_LIMIT).contains(&m) {
        return Err(OUTSIDE_LIMITS);
    }
    let counted = places.get(..m * n).ok_or(OUTSIDE_LIMITS)?;
    let limits = -COORDINATE_LIMIT..=COORDINATE_LIMIT;
    if !counted.iter().all(|coordinate| limits.contains(coordinate)) {
        return Err(OUTSIDE_LIMITS);
    }
    let row = |places: &[i32]| places.iter().map(|&place| i128::from(place)).collect();
    Ok(counted.chunks(n).map(row).collect())
}

pub fn squared_length(vector: &[i128]) -> i128 {
    vector.iter().map(|place| place * place).sum()
}

pub fn squared_distance(one: &[i128], other: &[i128]) -> i128 {
    one.iter().zip(other).map(|(a, b)| (a - b) * (a - b)).sum()
}

/// X: the sum of weight times row, channel by channel.
pub fn scaled_centre(rows: &[Vector], weights: &[i128]) -> Vector {
    let mut sum = vec![0; rows[0].len()];
    for (row, weight) in rows.iter().zip(weights) {
        for (place, coordinate) in sum.iter_mut().zip(row) {
            *place += weight * coordinate;
        }
    }
    sum
}

/// s of every row: the squared length of (D times row - X).
pub fn scaled_squared_distances(rows: &[Vector], centre: &[i128]) -> Vec<i128> {
    let difference = |(coordinate, place): (&i128, &i128)| TOTAL * coordinate - place;
    let square = |number: i128| number * number;
    rows.iter()
        .map(|row| row.iter().zip(centre).map(difference).map(square).sum())
        .collect()
}

/// L: D times (the sum of weight times the row's squared length), less the squared length of X.
pub fn scaled_lower_bound(rows: &[Vector], weights: &[i128]) -> i128 {
    let weighted: i128 = rows
        .iter()
        .zip(weights)
        .map(|(row, weight)| weight * squared_length(row))
        .sum();
    TOTAL * weighted - squared_length(&scaled_centre(rows, weights))
}

/// The lowest row with the largest s.
fn far_row(distances: &[i128]) -> usize {
    let mut far = 0;
    for row in 1..distances.len() {
        if distances[row] > distances[far] {
            far = row;
        }
    }
    far
}

/// The lowest row with the smallest s among rows of weight above 0.
fn near_row(distances: &[i128], weights: &[i128]) -> usize {
    let mut weighted = (0..weights.len()).filter(|&row| weights[row] > 0);
    let mut near = weighted.next().expect("the weights sum to D");
    for row in weighted {
        if distances[row] < distances[near] {
            near = row;
        }
    }
    near
}

/// The far row and the near row of weights that sum to D.
pub fn pair(rows: &[Vector], weights: &[i128]) -> Pair {
    let distances = scaled_squared_distances(rows, &scaled_centre(rows, weights));
    let far = far_row(&distances);
    let near = near_row(&distances, weights);
    let difference = distances[far] - distances[near];
    assert_eq!(difference % TOTAL, 0, "g is whole");
    Pair {
        far,
        near,
        g: difference / TOTAL,
        squared_distance: squared_distance(&rows[far], &rows[near]),
    }
}

/// The weights after one move, or nothing where they are Settled.
pub fn one_move(rows: &[Vector], weights: &[i128]) -> Option<Vec<i128>> {
    let pair = pair(rows, weights);
    if pair.settled() {
        return None;
    }
    let amount = pair.amount(weights);
    let mut moved = weights.to_vec();
    moved[pair.near] -= amount;
    moved[pair.far] += amount;
    Some(moved)
}

pub fn figures(rows: &[Vector], weights: &[i128]) -> Figures {
    let scaled_centre = scaled_centre(rows, weights);
    let distances = scaled_squared_distances(rows, &scaled_centre);
    Figures {
        scaled_squared_radius: *distances.iter().max().expect("m is 1 or more"),
        scaled_lower_bound: scaled_lower_bound(rows, weights),
        settled: pair(rows, weights).settled(),
        scaled_centre,
    }
}

/// All weight on the first row.
pub fn first_weights(m: usize) -> Vec<i128> {
    let mut weights = vec![0; m];
    weights[0] = TOTAL;
    weights
}

/// A drawing; refusals 8 and 9, in this order.
pub fn draw(places: &[i32], m: usize, n: usize, budget: u32) -> Result<Drawing, Refusal> {
    let rows = rows_within_limits(places, m, n)?;
    if budget > BUDGET_LIMIT {
        return Err(BUDGET_TOO_LARGE);
    }
    let mut weights = first_weights(m);
    let mut moves = 0;
    while moves < budget {
        let Some(moved) = one_move(&rows, &weights) else {
            break;
        };
        weights = moved;
        moves += 1;
    }
    Ok(Drawing {
        figures: figures(&rows, &weights),
        weights,
        moves,
    })
}

/// The check of anybody's weights; refusals 8 and 12, in this order.
pub fn check(places: &[i32], m: usize, n: usize, weights: &[u32]) -> Result<Figures, Refusal> {
    let rows = rows_within_limits(places, m, n)?;
    if weights.len() != m {
        return Err(OUTSIDE_LIMITS);
    }
    let weights: Vec<i128> = weights.iter().map(|&weight| i128::from(weight)).collect();
    if weights.iter().sum::<i128>() != TOTAL {
        return Err(WEIGHTS_DISAGREE);
    }
    Ok(figures(&rows, &weights))
}
