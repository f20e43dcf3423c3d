//! The tests of demand 3 pass the outside implementation's figures, and stop wrong ones.

use outside::cases::{self, Answer, Case};
use outside::demands::{Demands, TriedBySource};
use outside::random::Random;
use outside::rules;
use outside::sets;

#[test]
fn figures_by_the_rules_hold() {
    let mut random = Random::new(7);
    for _ in 0..2_000 {
        let set = sets::small_set(&mut random);
        let demands = Demands::new(&mut random, set.rows());
        let drawn = Case::Draw(set.clone(), cases::budget(&mut random)).answer();
        demands.test(&drawn);
        let kind = cases::weighting(&mut random);
        let weights = cases::weights(&mut random, &set, &drawn.weights, kind);
        let checked = Case::Check(set, weights).answer();
        if checked.number == 0 {
            demands.test(&checked);
        }
    }
}

/// The rows 0, 10 and 4 with their drawing, changed as given, held to demand 3.
fn test_changed(change: impl Fn(&mut Answer)) -> TriedBySource {
    let places = [0, 10, 4];
    let rows = rules::rows_within_limits(&places, 3, 1).expect("within limits");
    let drawing = rules::draw(&places, 3, 1, 10_000).expect("within limits");
    let mut answer = Answer::from(drawing);
    change(&mut answer);
    Demands::new(&mut Random::new(8), rows).test(&answer)
}

/// The centre 5 is the best: the answer, the middle and the other solver all have it.
#[test]
fn rivals_are_counted_by_source() {
    let tried = test_changed(|_| ());
    assert_eq!((tried.solved.rivals, tried.solved.close), (7, 7));
    assert_eq!((tried.others.rivals, tried.others.close), (4, 2));
}

#[test]
#[should_panic(expected = "M is the largest s")]
fn radius_too_small() {
    test_changed(|answer| answer.scaled_squared_radius -= 1);
}

#[test]
#[should_panic(expected = "M is the largest s")]
fn radius_too_large() {
    test_changed(|answer| answer.scaled_squared_radius += 1);
}

#[test]
#[should_panic(expected = "L is at most M")]
fn lower_bound_above_the_radius() {
    test_changed(|answer| answer.scaled_lower_bound = answer.scaled_squared_radius + 1);
}

#[test]
#[should_panic(expected = "a rival beats the lower bound")]
fn lower_bound_too_large() {
    test_changed(|answer| {
        answer.scaled_centre = vec![0];
        answer.scaled_squared_radius = 429_496_729_600;
        answer.scaled_lower_bound = 107_374_182_401;
        answer.settled = false;
    });
}

#[test]
#[should_panic(expected = "Settled, but the gap is wide")]
fn settled_too_soon() {
    test_changed(|answer| answer.scaled_lower_bound -= 65_536 * 100 + 1);
}

#[test]
#[should_panic(expected = "more moves than L")]
fn more_moves_than_the_lower_bound() {
    test_changed(|answer| {
        answer.scaled_lower_bound = 1;
        answer.settled = false;
        answer.moves = 2;
    });
}
