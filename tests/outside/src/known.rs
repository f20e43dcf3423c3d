//! The cases that document 01 and the list of bad input name, and cases directed at its rules of
//! the move, with the answers that these give.

use crate::cases::{Answer, Case};
use crate::rules::{BUDGET_LIMIT, CHANNEL_LIMIT, COORDINATE_LIMIT, ROW_LIMIT};
use crate::sets::Set;

/// A case by name, and its answer.
pub struct Known {
    pub name: &'static str,
    pub case: Case,
    pub answer: Answer,
}

fn set(places: &[i32], n: usize) -> Set {
    Set {
        places: places.to_vec(),
        m: places.len() / n,
        n,
    }
}

fn refused(name: &'static str, number: u32, case: Case) -> Known {
    let answer = Answer {
        number,
        ..Answer::default()
    };
    Known { name, case, answer }
}

/// Sets with one limit broken, by name.
fn broken_sets() -> Vec<(&'static str, &'static str, Set)> {
    let counts = |m: usize, n: usize| Set {
        places: vec![1; m * n],
        m,
        n,
    };
    let ends_with = |last: i32| set(&[0, 0, 6, 0, 0, last], 2);
    let mut short = counts(3, 2);
    short.places.pop();
    let mut wrapping = counts(2, CHANNEL_LIMIT);
    wrapping.m = 1 << 61;
    let above = COORDINATE_LIMIT + 1;
    vec![
        ("draw_channels_0", "check_channels_0", counts(3, 0)),
        (
            "draw_channels_9",
            "check_channels_9",
            counts(3, CHANNEL_LIMIT + 1),
        ),
        ("draw_rows_0", "check_rows_0", counts(0, 2)),
        ("draw_rows_257", "check_rows_257", counts(ROW_LIMIT + 1, 2)),
        (
            "draw_coordinate_above",
            "check_coordinate_above",
            ends_with(above),
        ),
        (
            "draw_coordinate_below",
            "check_coordinate_below",
            ends_with(-above),
        ),
        ("draw_places_short", "check_places_short", short),
        ("draw_product_wraps", "check_product_wraps", wrapping),
    ]
}

/// All weight on the first of m rows; an empty list for no rows or more than a list can have.
fn first_row_weights(m: usize) -> Vec<u32> {
    let mut weights = vec![0; if m > ROW_LIMIT + 1 { 0 } else { m }];
    if let Some(first) = weights.first_mut() {
        *first = 65_536;
    }
    weights
}

/// Bad input: each is refused by the number beside it.
pub fn bad_input() -> Vec<Known> {
    let mut list = Vec::new();
    for (draw, check, broken) in broken_sets() {
        let weights = first_row_weights(broken.m);
        list.push(refused(draw, 8, Case::Draw(broken.clone(), 10_000)));
        list.push(refused(check, 8, Case::Check(broken, weights)));
    }
    let above = BUDGET_LIMIT + 1;
    let whole = set(&[0, 10], 1);
    let broken = set(&[0, COORDINATE_LIMIT + 1], 1);
    let check = |weights: &[u32]| Case::Check(whole.clone(), weights.to_vec());
    list.extend([
        refused("budget_above", 9, Case::Draw(whole.clone(), above)),
        refused("limits_before_budget", 8, Case::Draw(broken.clone(), above)),
        refused("list_short", 8, check(&[65_536])),
        refused("list_long", 8, check(&[65_536, 0, 0])),
        refused("sum_below", 12, check(&[32_767, 32_768])),
        refused("sum_above", 12, check(&[32_768, 32_769])),
        refused("sum_wraps", 12, check(&[u32::MAX, 65_537])),
        refused("limits_before_sum", 8, Case::Check(broken, vec![1, 1])),
    ]);
    list
}

/// An accepted drawing: its arguments, and all that it answers.
struct Drawn {
    name: &'static str,
    places: &'static [i32],
    size: (usize, usize),
    budget: u32,
    settled: bool,
    moves: u32,
    radius_and_lower_bound: (i128, i128),
    centre: &'static [i128],
    weights: &'static [i128],
}

impl Drawn {
    fn known(&self) -> Known {
        let (m, n) = self.size;
        let places = self.places.to_vec();
        let answer = Answer {
            settled: self.settled,
            moves: self.moves,
            scaled_squared_radius: self.radius_and_lower_bound.0,
            scaled_lower_bound: self.radius_and_lower_bound.1,
            scaled_centre: self.centre.to_vec(),
            weights: self.weights.to_vec(),
            ..Answer::default()
        };
        Known {
            name: self.name,
            case: Case::Draw(Set { places, m, n }, self.budget),
            answer,
        }
    }
}

/// An accepted check of one channel, whose weights are not Settled.
struct Unsettled {
    name: &'static str,
    places: &'static [i32],
    weights: &'static [u32],
    radius_and_lower_bound: (i128, i128),
    centre: i128,
}

impl Unsettled {
    fn known(&self) -> Known {
        let answer = Answer {
            scaled_squared_radius: self.radius_and_lower_bound.0,
            scaled_lower_bound: self.radius_and_lower_bound.1,
            scaled_centre: vec![self.centre],
            ..Answer::default()
        };
        Known {
            name: self.name,
            case: Case::Check(set(self.places, 1), self.weights.to_vec()),
            answer,
        }
    }
}

const ALL_ON_FIRST: [i128; ROW_LIMIT] = {
    let mut weights = [0; ROW_LIMIT];
    weights[0] = 65_536;
    weights
};

const LOW: i32 = -COORDINATE_LIMIT;
const HIGH: i32 = COORDINATE_LIMIT;

const AT_THE_LIMITS: [Drawn; 3] = [
    Drawn {
        name: "largest_distance",
        places: &[
            LOW, LOW, LOW, LOW, LOW, LOW, LOW, LOW, HIGH, HIGH, HIGH, HIGH, HIGH, HIGH, HIGH, HIGH,
        ],
        size: (2, CHANNEL_LIMIT),
        budget: 0,
        settled: false,
        moves: 0,
        radius_and_lower_bound: (2_199_023_255_552_000_000, 0),
        centre: &[-262_144_000; CHANNEL_LIMIT],
        weights: &[65_536, 0],
    },
    Drawn {
        name: "largest_counts",
        places: &[HIGH; ROW_LIMIT * CHANNEL_LIMIT],
        size: (ROW_LIMIT, CHANNEL_LIMIT),
        budget: BUDGET_LIMIT,
        settled: true,
        moves: 0,
        radius_and_lower_bound: (0, 0),
        centre: &[262_144_000; CHANNEL_LIMIT],
        weights: &ALL_ON_FIRST,
    },
    Drawn {
        name: "coordinate_past_the_rows",
        places: &[0, 10, HIGH + 1],
        size: (2, 1),
        budget: BUDGET_LIMIT,
        settled: true,
        moves: 1,
        radius_and_lower_bound: (107_374_182_400, 107_374_182_400),
        centre: &[327_680],
        weights: &[32_768, 32_768],
    },
];

const DRAWN_TRIALS: [Drawn; 6] = [
    Drawn {
        name: "rows_0_10",
        places: &[0, 10],
        size: (2, 1),
        budget: 10_000,
        settled: true,
        moves: 1,
        radius_and_lower_bound: (107_374_182_400, 107_374_182_400),
        centre: &[327_680],
        weights: &[32_768, 32_768],
    },
    Drawn {
        name: "rows_0_1",
        places: &[0, 1],
        size: (2, 1),
        budget: 10_000,
        settled: true,
        moves: 1,
        radius_and_lower_bound: (1_073_741_824, 1_073_741_824),
        centre: &[32_768],
        weights: &[32_768, 32_768],
    },
    Drawn {
        name: "one_row_budget_0",
        places: &[7],
        size: (1, 1),
        budget: 0,
        settled: true,
        moves: 0,
        radius_and_lower_bound: (0, 0),
        centre: &[458_752],
        weights: &[65_536],
    },
    Drawn {
        name: "rows_5_5",
        places: &[5, 5],
        size: (2, 1),
        budget: 10_000,
        settled: true,
        moves: 0,
        radius_and_lower_bound: (0, 0),
        centre: &[327_680],
        weights: &[65_536, 0],
    },
    Drawn {
        name: "record",
        places: &[0, 0, 6, 0, 0, 8],
        size: (3, 2),
        budget: 10_000,
        settled: true,
        moves: 2,
        radius_and_lower_bound: (107_374_182_400, 107_374_182_400),
        centre: &[196_608, 262_144],
        weights: &[0, 32_768, 32_768],
    },
    Drawn {
        name: "record_budget_1",
        places: &[0, 0, 6, 0, 0, 8],
        size: (3, 2),
        budget: 1,
        settled: false,
        moves: 1,
        radius_and_lower_bound: (223_338_299_392, 68_719_476_736),
        centre: &[0, 262_144],
        weights: &[32_768, 0, 32_768],
    },
];

/// Drawings whose answer turns on one rule of the move. The figures are worked out from the rules
/// apart from this implementation; rows are counted from 0.
const DIRECTED: [Drawn; 6] = [
    // Rows 1 and 2 are equally far. Had the highest of them gained, X would be -98,304.
    Drawn {
        name: "far_tie_to_the_lowest",
        places: &[0, 3, -3],
        size: (3, 1),
        budget: 1,
        settled: false,
        moves: 1,
        radius_and_lower_bound: (86_973_087_744, 9_663_676_416),
        centre: &[98_304],
        weights: &[32_768, 32_768, 0],
    },
    // After the move row 1 has the smallest s, 0, but no weight. Taken as the near row, it would
    // keep the drawing from Settled.
    Drawn {
        name: "near_row_has_weight",
        places: &[0, 5, 10],
        size: (3, 1),
        budget: 10_000,
        settled: true,
        moves: 1,
        radius_and_lower_bound: (107_374_182_400, 107_374_182_400),
        centre: &[327_680],
        weights: &[32_768, 0, 32_768],
    },
    // The second move: far row 2, near row 0, g 65,536, d² 5, g/(2d²) 6,553.6.
    Drawn {
        name: "before_a_half",
        places: &[0, 0, 0, 4, 2, 1],
        size: (3, 2),
        budget: 2,
        settled: false,
        moves: 2,
        radius_and_lower_bound: (19_112_735_540, 17_394_617_548),
        centre: &[13_108, 137_626],
        weights: &[26_214, 32_768, 6_554],
    },
    // The third move: far row 0, near row 1, g 52,432, d² 16, g/(2d²) 1,638.5. The half goes
    // down, so that t is 1,638 and not 1,639.
    Drawn {
        name: "half_goes_down",
        places: &[0, 0, 0, 4, 2, 1],
        size: (3, 2),
        budget: 3,
        settled: false,
        moves: 3,
        radius_and_lower_bound: (18_210_734_740, 17_437_572_460),
        centre: &[13_108, 131_074],
        weights: &[27_852, 31_130, 6_554],
    },
    // The first move: rows 1 and 2 are equally far, g 327,680, d² 5, t 32,768.
    Drawn {
        name: "before_above_a_half",
        places: &[0, 0, 1, 2, 2, 1],
        size: (3, 2),
        budget: 1,
        settled: false,
        moves: 1,
        radius_and_lower_bound: (9_663_676_416, 5_368_709_120),
        centre: &[32_768, 65_536],
        weights: &[32_768, 32_768, 0],
    },
    // The second move: far row 2, near row 0, g 65,536, d² 5, g/(2d²) 6,553.6. It goes to the
    // nearest whole number, so that t is 6,554 and not the whole part 6,553.
    Drawn {
        name: "above_a_half_goes_up",
        places: &[0, 0, 1, 2, 2, 1],
        size: (3, 2),
        budget: 2,
        settled: false,
        moves: 2,
        radius_and_lower_bound: (7_301_575_476, 5_583_457_484),
        centre: &[45_876, 72_090],
        weights: &[26_214, 32_768, 6_554],
    },
];

const CHECKED_TRIALS: [Unsettled; 2] = [
    Unsettled {
        name: "one_more_is_moved",
        places: &[0, 10],
        weights: &[32_767, 32_769],
        radius_and_lower_bound: (107_380_736_100, 107_374_182_300),
        centre: 327_690,
    },
    Unsettled {
        name: "held_to_the_weight",
        places: &[0, 1, 2],
        weights: &[32_768, 1, 32_767],
        radius_and_lower_bound: (4_295_098_369, 4_294_901_759),
        centre: 65_535,
    },
];

/// Input at the limits, which is accepted.
pub fn at_the_limits() -> Vec<Known> {
    AT_THE_LIMITS.iter().map(Drawn::known).collect()
}

/// The starred trial figures that concern the ball; what document 01 leaves out of a figure's line
/// is worked out by hand from its rules.
pub fn trials() -> Vec<Known> {
    let drawn = DRAWN_TRIALS.iter().map(Drawn::known);
    drawn
        .chain(CHECKED_TRIALS.iter().map(Unsettled::known))
        .collect()
}

/// Drawings directed at one rule of the move each. They are not among the stored cases.
pub fn directed() -> Vec<Known> {
    DIRECTED.iter().map(Drawn::known).collect()
}
