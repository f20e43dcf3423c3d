//! What demand 3 says of the figures of a set, tested in whole numbers against rivals.
//!
//! With q at most 2^20 and the rival's centre within twice the limit on coordinates, each side of
//! the first statement is below 2^106, so that 128 bits hold it.

use crate::cases::Answer;
use crate::random::Random;
use crate::rules::{self, COORDINATE_LIMIT, TOTAL, Vector};
use std::ops::AddAssign;

const LARGEST_DENOMINATOR: i128 = 1 << 20;

/// A rival centre Y/q, with P the largest squared length of (q times row - Y).
struct Rival {
    centre: Vector,
    denominator: i128,
    squared_radius: i128,
}

/// How many rivals an answer was tested against, and how many of them it beats by less than a
/// thousandth.
#[derive(Clone, Copy, Debug, Default, PartialEq, Eq)]
pub struct Tried {
    pub rivals: u64,
    pub close: u64,
}

/// The rivals by where their centres come from.
#[derive(Clone, Copy, Debug, Default, PartialEq, Eq)]
pub struct TriedBySource {
    /// From the other solver.
    pub solved: Tried,
    /// The answer's own centre, the middle of the two furthest rows, and random ones.
    pub others: Tried,
}

/// The rows of a set, with what every answer about them is tested against.
pub struct Demands {
    rows: Vec<Vector>,
    largest_squared_distance: i128,
    solved: Vec<Rival>,
    others: Vec<Rival>,
}

impl Demands {
    pub fn new(random: &mut Random, rows: Vec<Vector>) -> Demands {
        let (largest_squared_distance, one, other) = furthest_rows(&rows);
        let middle = (0..rows[0].len()).map(|place| rows[one][place] + rows[other][place]);
        let mut others = vec![Rival::new(&rows, middle.collect(), 2)];
        let solved = near_optimal(random, &rows);
        others.extend((0..2).map(|_| random_rival(random, &rows)));
        Demands {
            rows,
            largest_squared_distance,
            solved,
            others,
        }
    }

    /// Stops the tests where the figures fail demand 3.
    pub fn test(&self, answer: &Answer) -> TriedBySource {
        self.test_ball(answer);
        let own = Rival::new(&self.rows, answer.scaled_centre.clone(), TOTAL);
        TriedBySource {
            solved: Tried::of(self.solved.iter(), answer),
            others: Tried::of(self.others.iter().chain([&own]), answer),
        }
    }

    fn test_ball(&self, answer: &Answer) {
        let radius = answer.scaled_squared_radius;
        let distances = rules::scaled_squared_distances(&self.rows, &answer.scaled_centre);
        let largest = distances.iter().max();
        assert_eq!(largest, Some(&radius), "M is the largest s");
        let gap = radius - answer.scaled_lower_bound;
        assert!(gap >= 0, "L is at most M");
        let settled_gap = TOTAL * self.largest_squared_distance;
        assert!(
            !answer.settled || gap <= settled_gap,
            "Settled, but the gap is wide"
        );
        assert!(
            i128::from(answer.moves) <= answer.scaled_lower_bound,
            "more moves than L"
        );
    }
}

impl Tried {
    fn of<'a>(rivals: impl Iterator<Item = &'a Rival>, answer: &Answer) -> Tried {
        let mut tried = Tried::default();
        for rival in rivals {
            tried.rivals += 1;
            tried.close += u64::from(rival.test(answer));
        }
        tried
    }
}

impl AddAssign for Tried {
    fn add_assign(&mut self, more: Tried) {
        self.rivals += more.rivals;
        self.close += more.close;
    }
}

impl Rival {
    fn new(rows: &[Vector], centre: Vector, denominator: i128) -> Rival {
        assert!(denominator >= 1);
        let difference = |(place, coordinate): (&i128, &i128)| denominator * coordinate - place;
        let distance = |row: &Vector| -> i128 {
            let differences: Vector = centre.iter().zip(row).map(difference).collect();
            rules::squared_length(&differences)
        };
        let squared_radius = rows.iter().map(distance).max().expect("m is 1 or more");
        Rival {
            centre,
            denominator,
            squared_radius,
        }
    }

    /// D² times P is at least q² times L plus the squared length of (q times X - D times Y).
    /// Gives whether the two sides are within a thousandth.
    fn test(&self, answer: &Answer) -> bool {
        let q = self.denominator;
        let between = |(x, y): (&i128, &i128)| q * x - TOTAL * y;
        let apart: Vector = answer
            .scaled_centre
            .iter()
            .zip(&self.centre)
            .map(between)
            .collect();
        let owed = q * q * answer.scaled_lower_bound + rules::squared_length(&apart);
        let given = TOTAL * TOTAL * self.squared_radius;
        assert!(given >= owed, "a rival beats the lower bound");
        (given - owed) * 1_000 < given
    }
}

/// The largest squared distance between two rows, and two rows that have it.
fn furthest_rows(rows: &[Vector]) -> (i128, usize, usize) {
    let mut furthest = (0, 0, 0);
    for one in 0..rows.len() {
        for other in 0..one {
            let distance = rules::squared_distance(&rows[one], &rows[other]);
            furthest = furthest.max((distance, one, other));
        }
    }
    furthest
}

/// A centre anywhere within twice the limit on coordinates, or in a quarter of it.
fn random_rival(random: &mut Random, rows: &[Vector]) -> Rival {
    let denominator = 1 + random.below(LARGEST_DENOMINATOR as u64) as i128;
    let reach = random.pick(&[2 * COORDINATE_LIMIT, COORDINATE_LIMIT / 4]);
    let furthest = denominator * i128::from(reach);
    let place = |_| i128::from(random.below(2 * furthest as u64 + 1)) - furthest;
    let centre = (0..rows[0].len()).map(place).collect();
    Rival::new(rows, centre, denominator)
}

/// Another solver's centre, rounded to fractions of several denominators.
fn near_optimal(random: &mut Random, rows: &[Vector]) -> Vec<Rival> {
    let centre = solved_centre(rows);
    let drawn = 1 + random.below(LARGEST_DENOMINATOR as u64) as i128;
    let denominators = [1, 2, 7, 1_000, TOTAL, LARGEST_DENOMINATOR, drawn];
    let rounded = |denominator: i128| {
        let round = |place: &f64| (place * denominator as f64).round() as i128;
        Rival::new(rows, centre.iter().map(round).collect(), denominator)
    };
    denominators.into_iter().map(rounded).collect()
}

/// A centre by a method unlike the moves: steps towards the furthest row, each shorter than the
/// one before.
fn solved_centre(rows: &[Vector]) -> Vec<f64> {
    const STEPS: usize = 400;
    let narrow = |row: &Vector| row.iter().map(|&place| place as f64).collect();
    let rows: Vec<Vec<f64>> = rows.iter().map(narrow).collect();
    let mut centre = rows[0].clone();
    let mut part = 0.5;
    for _ in 0..STEPS {
        let furthest = furthest_from(&rows, &centre);
        for (place, coordinate) in centre.iter_mut().zip(furthest) {
            *place += part * (coordinate - *place);
        }
        part *= 0.97;
    }
    centre
}

fn furthest_from<'a>(rows: &'a [Vec<f64>], centre: &[f64]) -> &'a [f64] {
    let distance =
        |row: &[f64]| -> f64 { row.iter().zip(centre).map(|(a, b)| (a - b) * (a - b)).sum() };
    let mut furthest = (distance(&rows[0]), &rows[0]);
    for row in rows {
        let candidate = distance(row);
        if candidate > furthest.0 {
            furthest = (candidate, row);
        }
    }
    furthest.1
}
