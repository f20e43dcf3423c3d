//! A stored set of cases, for a program that runs them through the product.
//!
//! The input is one case after the other; every number has its lowest byte first:
//!
//! | bytes | meaning |
//! |---|---|
//! | 1 | 0 a drawing, 1 a check, 255 the end, after which nothing follows |
//! | 2 | m |
//! | 1 | n |
//! | 4 | budget, 0 for a check |
//! | 2 | number of places lent as rows |
//! | 2 each | the places, signed (two's complement) |
//! | 2 | a check only: number of weights lent |
//! | 4 each | a check only: the weights |
//!
//! The output is a line a case, which ends in byte 10: eight plain numbers, parted by commas.
//!
//! | number | meaning |
//! |---|---|
//! | 1 | the refusal's number, 0 where accepted |
//! | 2 | the refusal's line |
//! | 3 | 1 for Settled, else 0 |
//! | 4 | moves, 0 for a check |
//! | 5 | M |
//! | 6 | L |
//! | 7 | the sum of place · (X there + 262,144,000) over the places 1 to 8 |
//! | 8 | the sum of place · (weight there) over the places 1 to 256, 0 for a check |
//!
//! X is 0 past n, a weight is 0 past m, and both are 0 throughout in a refusal. No term is
//! negative, and every sum is below 2^35.

use crate::cases::{self, Answer, Case, WEIGHTINGS, Weighting};
use crate::known;
use crate::random::Random;
use crate::rules::{BUDGET_LIMIT, CHANNEL_LIMIT, COORDINATE_LIMIT, ROW_LIMIT, TOTAL};
use crate::sets::{self, SHAPES, Set, Shape};

/// The seed of the cases in the gate.
pub const SEED: u64 = 20_260_102;

const DRAW: u8 = 0;
const CHECK: u8 = 1;
const END: u8 = 255;
const INPUT_LIMIT: usize = 60_000;
/// Small sets; the number is a multiple of the number of shapes and of kinds of weights.
const SMALL_SETS: usize = 135;
/// The most places of a damaged set; a count just broken can ask for many more.
const SMALL_PLACES: usize = 100;

/// The known cases, seeded small ones of every shape and kind of weights, damaged ones, and full
/// sets.
pub fn stored_cases(random: &mut Random) -> Vec<Case> {
    let known = [
        known::trials(),
        known::directed(),
        known::at_the_limits(),
        known::bad_input(),
    ];
    let mut list: Vec<Case> = known
        .into_iter()
        .flatten()
        .map(|known| known.case)
        .collect();
    for index in 0..SMALL_SETS {
        let (m, n) = (1 + random.index(10), 1 + random.index(CHANNEL_LIMIT));
        let set = sets::set(random, SHAPES[index % SHAPES.len()], m, n);
        let budget = cases::budget(random);
        list.extend(cases_of(random, set, budget, index));
    }
    let full = |random: &mut Random, shape| sets::set(random, shape, ROW_LIMIT, CHANNEL_LIMIT);
    for shape in [Shape::Uniform, Shape::Sphere] {
        list.push(Case::Draw(full(random, shape), BUDGET_LIMIT));
    }
    let extreme = full(random, Shape::Extreme);
    let weights = cases::weights(random, &extreme, &[], Weighting::Random);
    list.push(Case::Check(extreme, weights));
    list.retain(fits);
    list
}

/// A drawing and a check of the set, and in one of three both damaged.
fn cases_of(random: &mut Random, set: Set, budget: u32, index: usize) -> Vec<Case> {
    let draw = Case::Draw(set.clone(), budget);
    let drawn = draw.answer().weights;
    let kind = WEIGHTINGS[index % WEIGHTINGS.len()];
    let weights = cases::weights(random, &set, &drawn, kind);
    let mut list = vec![draw, Case::Check(set.clone(), weights.clone())];
    if index.is_multiple_of(3) {
        let damaged = [
            cases::damaged_draw(random, &set, budget).1,
            cases::damaged_check(random, &set, &weights).1,
        ];
        let small = |case: &Case| case.set().places.len() <= SMALL_PLACES;
        list.extend(damaged.into_iter().filter(small));
    }
    list
}

/// Whether the input's form can hold the case.
fn fits(case: &Case) -> bool {
    let set = case.set();
    let narrow = |&place: &i32| i16::try_from(place).is_ok();
    let counts = u16::try_from(set.m).is_ok() && u8::try_from(set.n).is_ok();
    counts && set.places.iter().all(narrow)
}

/// The input of the cases.
pub fn input(list: &[Case]) -> Vec<u8> {
    let mut bytes = Vec::new();
    for case in list {
        push_case(&mut bytes, case);
    }
    bytes.push(END);
    assert!(bytes.len() < INPUT_LIMIT, "{} bytes", bytes.len());
    bytes
}

fn push_case(bytes: &mut Vec<u8>, case: &Case) {
    let set = case.set();
    let (kind, budget) = match case {
        Case::Draw(_, budget) => (DRAW, *budget),
        Case::Check(..) => (CHECK, 0),
    };
    bytes.push(kind);
    bytes.extend((set.m as u16).to_le_bytes());
    bytes.push(set.n as u8);
    bytes.extend(budget.to_le_bytes());
    bytes.extend((set.places.len() as u16).to_le_bytes());
    bytes.extend(
        set.places
            .iter()
            .flat_map(|&place| (place as i16).to_le_bytes()),
    );
    if let Case::Check(_, weights) = case {
        bytes.extend((weights.len() as u16).to_le_bytes());
        bytes.extend(weights.iter().flat_map(|weight| weight.to_le_bytes()));
    }
}

/// The output that is owed for the cases.
pub fn output(list: &[Case]) -> String {
    list.iter().map(|case| line(&case.answer())).collect()
}

fn line(answer: &Answer) -> String {
    let largest_centre = TOTAL * i128::from(COORDINATE_LIMIT);
    let numbers = [
        answer.number.into(),
        answer.line.into(),
        answer.settled.into(),
        answer.moves.into(),
        answer.scaled_squared_radius,
        answer.scaled_lower_bound,
        digest(&answer.scaled_centre, CHANNEL_LIMIT, largest_centre),
        digest(&answer.weights, ROW_LIMIT, 0),
    ];
    numbers.map(|number| number.to_string()).join(",") + "\n"
}

/// The sum of place · (value + raise) over the places from 1 to `count`, values past the list
/// being 0.
fn digest(values: &[i128], count: usize, raise: i128) -> i128 {
    let value = |place: usize| values.get(place - 1).copied().unwrap_or(0);
    (1..=count)
        .map(|place| place as i128 * (value(place) + raise))
        .sum()
}
