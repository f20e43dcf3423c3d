//! The outside implementation held to the figures that document 01 states.

use outside::cases::{self, Answer, Case};
use outside::known::{self, Known};
use outside::random::Random;
use outside::rules::{self, Pair, TOTAL};
use outside::sets::{self, SHAPES};

#[test]
fn trial_figures() {
    hold(known::trials());
}

#[test]
fn directed_figures() {
    hold(known::directed());
}

#[test]
fn input_at_the_limits_is_accepted() {
    hold(known::at_the_limits());
}

#[test]
fn bad_input_is_refused() {
    hold(known::bad_input());
}

#[test]
fn first_move_of_rows_0_and_10() {
    let pair = pair_of(&[0, 10], &[65_536, 0]);
    assert_eq!((pair.far, pair.near), (1, 0));
    assert_eq!(pair.amount(&[65_536, 0]), 32_768);
}

#[test]
fn one_more_is_moved_where_g_is_twice_the_squared_distance() {
    let weights = [32_767, 32_769];
    let pair = pair_of(&[0, 10], &weights);
    assert_eq!((pair.g, pair.amount(&weights)), (200, 1));
}

#[test]
fn amount_is_held_to_the_near_weight() {
    let weights = [32_768, 1, 32_767];
    let pair = pair_of(&[0, 1, 2], &weights);
    assert_eq!((pair.g, pair.amount(&weights)), (65_538, 1));
}

#[test]
fn ties_go_to_the_lowest_row() {
    let pair = pair_of(&[0, 0, 5, 5, 0], &[0, 30_000, 0, 0, 35_536]);
    assert_eq!((pair.far, pair.near), (2, 1));
}

/// The rows and weights before the last move of `half_goes_down` and of `above_a_half_goes_up`.
#[test]
fn amount_is_rounded_with_a_half_down() {
    let down = ([0, 0, 0, 4, 2, 1], [26_214, 32_768, 6_554]);
    let up = ([0, 0, 1, 2, 2, 1], [32_768, 32_768, 0]);
    let amount = |(places, weights): ([i32; 6], [i128; 3])| {
        let rows = rules::rows_within_limits(&places, 3, 2).expect("within limits");
        let pair = rules::pair(&rows, &weights);
        (pair.g, pair.squared_distance, pair.amount(&weights))
    };
    assert_eq!(amount(down), (52_432, 16, 1_638));
    assert_eq!(amount(up), (65_536, 5, 6_554));
}

/// The sum is kept and L rises by t·(g - t·d²), at least 1.
#[test]
fn each_move_raises_the_lower_bound() {
    let mut random = Random::new(1);
    for _ in 0..300 {
        let set = sets::small_set(&mut random);
        let rows = set.rows();
        let mut weights = rules::first_weights(set.m);
        while let Some(moved) = rules::one_move(&rows, &weights) {
            let pair = rules::pair(&rows, &weights);
            let amount = pair.amount(&weights);
            let rise = amount * (pair.g - amount * pair.squared_distance);
            let before = rules::scaled_lower_bound(&rows, &weights);
            assert!(rise >= 1);
            assert_eq!(rules::scaled_lower_bound(&rows, &moved), before + rise);
            assert_eq!(moved.iter().sum::<i128>(), TOTAL);
            weights = moved;
        }
    }
}

/// The check gives the figures of the drawing for the weights that it drew.
#[test]
fn drawn_weights_check() {
    let mut random = Random::new(2);
    for shape in SHAPES {
        let set = sets::set(&mut random, shape, 20, 4);
        let budget = cases::budget(&mut random);
        let drawn = Case::Draw(set.clone(), budget).answer();
        let weights = drawn.weights.iter().map(|&weight| weight as u32).collect();
        let expected = Answer {
            moves: 0,
            weights: Vec::new(),
            ..drawn
        };
        assert_eq!(Case::Check(set, weights).answer(), expected, "{shape:?}");
    }
}

fn hold(list: Vec<Known>) {
    for known in list {
        assert_eq!(known.case.answer(), known.answer, "{}", known.name);
    }
}

fn pair_of(places: &[i32], weights: &[i128]) -> Pair {
    let rows = rules::rows_within_limits(places, places.len(), 1).expect("within limits");
    rules::pair(&rows, weights)
}
