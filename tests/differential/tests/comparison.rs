//! The product compared with the outside implementation on seeded sets. CUNDARIVO_SEED and
//! CUNDARIVO_SETS in the environment give another seed and a larger number of sets.

use differential::compare::{self, Lent, Room};
use differential::seeded::seeded;
use differential::tally::Tally;
use outside::cases::{self, Answer, Case, WEIGHTINGS};
use outside::demands::Demands;
use outside::random::Random;
use outside::rules::{BUDGET_LIMIT, CHANNEL_LIMIT, ROW_LIMIT};
use outside::sets::{self, DAMAGES, SHAPES, Set};

const SEED: u64 = 20_260_101;
const SETS: u64 = 200_000;
/// The budgets that must have been met.
const BUDGETS: [u32; 5] = [0, 1, 2, 10_000, BUDGET_LIMIT];

fn main() {
    seeded(SEED, "SETS", SETS, compare_all);
}

fn compare_all(mut random: Random, sets: u64) {
    let mut tally = Tally::default();
    for _ in 0..sets {
        compare_set(&mut random, &mut tally);
    }
    tally.print();
    let damages = DAMAGES.iter().map(|kind| format!("damage: {kind:?}"));
    let weightings = WEIGHTINGS.iter().map(|kind| format!("weights: {kind:?}"));
    let shapes = SHAPES.iter().map(|kind| format!("shape: {kind:?}"));
    let budgets = BUDGETS.iter().map(|budget| format!("budget: {budget}"));
    tally.require(damages.chain(weightings).chain(shapes).chain(budgets));
}

/// A whole set drawn and checked, and in one of four sets a damaged drawing and check too.
fn compare_set(random: &mut Random, tally: &mut Tally) {
    let shape = random.pick(&SHAPES);
    let (m, n) = sets::size(random);
    let set = sets::set(random, shape, m, n);
    let demands = Demands::new(random, set.rows());
    tally.sets += 1;
    tally.full_sets += u64::from((m, n) == (ROW_LIMIT, CHANNEL_LIMIT));
    tally.count_kind("shape", shape);

    let budget = cases::budget(random);
    if BUDGETS.contains(&budget) {
        tally.count_kind("budget", budget);
    }
    let draw = Case::Draw(set.clone(), budget);
    let drawn = compare_whole(random, tally, &demands, &draw);

    let kind = cases::weighting(random);
    tally.count_kind("weights", kind);
    let weights = cases::weights(random, &set, &drawn.weights, kind);
    let check = Case::Check(set.clone(), weights.clone());
    compare_whole(random, tally, &demands, &check);

    if random.once_in(16) {
        compare::compare_owned(&draw);
        compare::compare_owned(&check);
    }
    if random.once_in(4) {
        compare_damaged(random, tally, &set, budget, &weights);
    }
}

/// A case lent enough room. Where it is accepted, its figures are held to demand 3.
fn compare_whole(random: &mut Random, tally: &mut Tally, demands: &Demands, case: &Case) -> Answer {
    let room = random.pick(&[Room::Exact, Room::Longer]);
    let answer = compare_and_count(random, tally, case, room);
    if answer.number == 0 {
        tally.count_rivals(case, &answer, demands.test(&answer));
    }
    answer
}

/// Damaged cases with any room, and whole ones with too little.
fn compare_damaged(
    random: &mut Random,
    tally: &mut Tally,
    set: &Set,
    budget: u32,
    weights: &[u32],
) {
    let rooms = [
        Room::Exact,
        Room::Longer,
        Room::CentreShort,
        Room::WeightsShort,
    ];
    let damaged = [
        cases::damaged_draw(random, set, budget.min(60)),
        cases::damaged_check(random, set, weights),
    ];
    for (damage, case) in damaged {
        if let Some(kind) = damage {
            tally.count_kind("damage", kind);
        }
        let room = random.pick(&rooms);
        compare_and_count(random, tally, &case, room);
    }
    let whole_draw = Case::Draw(set.clone(), budget.min(2));
    let whole_check = Case::Check(set.clone(), weights.to_vec());
    for case in [whole_draw, whole_check] {
        let room = random.pick(&rooms[2..]);
        compare_and_count(random, tally, &case, room);
    }
}

fn compare_and_count(random: &mut Random, tally: &mut Tally, case: &Case, room: Room) -> Answer {
    let lent = Lent::new(random, case, room);
    let answer = compare::compare(case, lent);
    tally.count(case, &answer);
    answer
}
