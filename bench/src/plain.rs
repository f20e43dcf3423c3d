//! The drawing and the check in plain Rust, written for speed: 64-bit figures, X carried from move
//! to move, the far and the near row found by one pass each.

const TOTAL: i64 = 65_536;
const ROWS: usize = 256;
const CHANNELS: usize = 8;
const COORDINATE_LIMIT: i32 = 4_000;
const BUDGET_LIMIT: u32 = 1_000_000;

/// The figures of an accepted call; a check makes no moves.
#[derive(Clone, Copy, Debug, PartialEq, Eq)]
pub struct Figures {
    pub settled: bool,
    pub moves: u32,
    pub scaled_squared_radius: u64,
    pub scaled_lower_bound: u64,
}

/// Rows within the limits.
pub struct Table<'a> {
    places: &'a [i32],
    pub m: usize,
    pub n: usize,
}

/// The weights and the X that belongs to them.
struct State {
    weights: [u32; ROWS],
    centre: [i64; CHANNELS],
}

struct Pair {
    far: usize,
    near: usize,
    far_distance: u64,
    g: i64,
    squared_distance: i64,
}

impl Table<'_> {
    pub fn new(places: &[i32], m: usize, n: usize) -> Result<Table<'_>, u32> {
        if n == 0 || n > CHANNELS || m == 0 || m > ROWS || places.len() < m * n {
            return Err(8);
        }
        let places = &places[..m * n];
        let limits = -COORDINATE_LIMIT..=COORDINATE_LIMIT;
        if !places.iter().all(|place| limits.contains(place)) {
            return Err(8);
        }
        Ok(Table { places, m, n })
    }

    fn row(&self, row: usize) -> &[i32] {
        &self.places[row * self.n..(row + 1) * self.n]
    }

    fn scaled_squared_distance(&self, row: usize, centre: &[i64; CHANNELS]) -> u64 {
        let mut sum = 0;
        for (&coordinate, &place) in self.row(row).iter().zip(centre) {
            let difference = TOTAL * i64::from(coordinate) - place;
            sum += difference * difference;
        }
        sum as u64
    }

    fn squared_distance(&self, one: usize, other: usize) -> i64 {
        let mut sum = 0;
        for (&a, &b) in self.row(one).iter().zip(self.row(other)) {
            let difference = i64::from(a) - i64::from(b);
            sum += difference * difference;
        }
        sum
    }

    fn squared_length(&self, row: usize) -> i64 {
        let square = |&place: &i32| i64::from(place) * i64::from(place);
        self.row(row).iter().map(square).sum()
    }

    fn far_row(&self, state: &State) -> (usize, u64) {
        let mut far = (0, self.scaled_squared_distance(0, &state.centre));
        for row in 1..self.m {
            let distance = self.scaled_squared_distance(row, &state.centre);
            if distance > far.1 {
                far = (row, distance);
            }
        }
        far
    }

    fn near_row(&self, state: &State) -> (usize, u64) {
        let mut near = (0, u64::MAX);
        for row in 0..self.m {
            if state.weights[row] > 0 {
                let distance = self.scaled_squared_distance(row, &state.centre);
                if distance < near.1 {
                    near = (row, distance);
                }
            }
        }
        near
    }

    fn pair(&self, state: &State) -> Pair {
        let (far, far_distance) = self.far_row(state);
        let (near, near_distance) = self.near_row(state);
        Pair {
            far,
            near,
            far_distance,
            g: (far_distance - near_distance) as i64 / TOTAL,
            squared_distance: self.squared_distance(far, near),
        }
    }

    fn make_move(&self, state: &mut State, pair: &Pair) {
        let wanted = (pair.g + pair.squared_distance - 1) / (2 * pair.squared_distance);
        let amount = wanted.min(i64::from(state.weights[pair.near]));
        state.weights[pair.near] -= amount as u32;
        state.weights[pair.far] += amount as u32;
        let rows = self.row(pair.far).iter().zip(self.row(pair.near));
        for (place, (&far, &near)) in state.centre.iter_mut().zip(rows) {
            *place += amount * (i64::from(far) - i64::from(near));
        }
    }

    fn scaled_lower_bound(&self, state: &State) -> u64 {
        let mut weighted = 0;
        for row in 0..self.m {
            weighted += i64::from(state.weights[row]) * self.squared_length(row);
        }
        let centre: i64 = state.centre.iter().map(|place| place * place).sum();
        (TOTAL * weighted - centre) as u64
    }

    /// The figures and X of m weights; a refusal is its number.
    pub fn check(&self, weights: &[u32]) -> Result<(Figures, [i64; CHANNELS]), u32> {
        if weights.iter().map(|&weight| u64::from(weight)).sum::<u64>() != TOTAL as u64 {
            return Err(12);
        }
        let mut state = State {
            weights: [0; ROWS],
            centre: [0; CHANNELS],
        };
        state.weights[..self.m].copy_from_slice(weights);
        for (row, &weight) in weights.iter().enumerate() {
            for (place, &coordinate) in state.centre.iter_mut().zip(self.row(row)) {
                *place += i64::from(weight) * i64::from(coordinate);
            }
        }
        let pair = self.pair(&state);
        Ok((self.figures(&state, &pair, 0), state.centre))
    }

    fn figures(&self, state: &State, pair: &Pair, moves: u32) -> Figures {
        Figures {
            settled: pair.g <= pair.squared_distance,
            moves,
            scaled_squared_radius: pair.far_distance,
            scaled_lower_bound: self.scaled_lower_bound(state),
        }
    }
}

/// A drawing that fills the lent slices as the library's does; a refusal is its number.
pub fn draw(
    places: &[i32],
    (m, n): (usize, usize),
    budget: u32,
    centre: &mut [i64],
    weights: &mut [u32],
) -> Result<Figures, u32> {
    let table = Table::new(places, m, n)?;
    if budget > BUDGET_LIMIT {
        return Err(9);
    }
    if centre.len() < n || weights.len() < m {
        return Err(13);
    }
    let mut state = State {
        weights: [0; ROWS],
        centre: [0; CHANNELS],
    };
    state.weights[0] = TOTAL as u32;
    for (place, &coordinate) in state.centre.iter_mut().zip(table.row(0)) {
        *place = TOTAL * i64::from(coordinate);
    }
    let mut moves = 0;
    let mut pair = table.pair(&state);
    while pair.g > pair.squared_distance && moves < budget {
        table.make_move(&mut state, &pair);
        moves += 1;
        pair = table.pair(&state);
    }
    centre[..n].copy_from_slice(&state.centre[..n]);
    weights[..m].copy_from_slice(&state.weights[..m]);
    Ok(table.figures(&state, &pair, moves))
}

/// A check that fills the lent centre as the library's does; a refusal is its number.
pub fn check(
    places: &[i32],
    (m, n): (usize, usize),
    weights: &[u32],
    centre: &mut [i64],
) -> Result<Figures, u32> {
    let table = Table::new(places, m, n)?;
    if weights.len() != m {
        return Err(8);
    }
    let (figures, own) = table.check(weights)?;
    let filled = centre.get_mut(..n).ok_or(13_u32)?;
    filled.copy_from_slice(&own[..n]);
    Ok(figures)
}
