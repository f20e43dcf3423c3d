//! One case through the product and through the outside implementation.

use outside::cases::{Answer, Case};
use outside::random::Random;
use outside::rules::BUFFER_TOO_SHORT;

/// Room is lent for no more places than these, however large the counts of a refused case are.
const MOST_WEIGHTS: usize = 300;
const MOST_CHANNELS: usize = 20;

/// The slices lent to be written. A check is lent the centre alone.
#[derive(Clone, Debug, PartialEq, Eq)]
pub struct Lent {
    pub centre: Vec<i64>,
    pub weights: Vec<u32>,
}

/// How many places are lent, against what an accepted call fills.
#[derive(Clone, Copy, Debug, PartialEq, Eq)]
pub enum Room {
    Exact,
    Longer,
    CentreShort,
    WeightsShort,
}

impl Lent {
    /// Slices of random numbers, so that a place written or left is told apart.
    pub fn new(random: &mut Random, case: &Case, room: Room) -> Lent {
        let m = case.set().m.min(MOST_WEIGHTS);
        let n = case.set().n.min(MOST_CHANNELS);
        let (centre, weights) = match room {
            Room::Exact => (n, m),
            Room::Longer => (n + 1 + random.index(9), m + 1 + random.index(9)),
            Room::CentreShort => (n.saturating_sub(1 + random.index(n + 1)), m + 1),
            Room::WeightsShort => (n + 1, m.saturating_sub(1 + random.index(m + 1))),
        };
        Lent {
            centre: (0..centre).map(|_| random.number() as i64).collect(),
            weights: (0..weights).map(|_| random.number() as u32).collect(),
        }
    }
}

/// Runs the case through both, and stops the tests where they differ in any figure or place.
/// Gives the answer on which both agree.
pub fn compare(case: &Case, lent: Lent) -> Answer {
    let mut lent_to_product = lent.clone();
    let product = product(case, &mut lent_to_product);
    let mut expected_places = lent;
    let expected = expected(case, &mut expected_places);
    assert_eq!(product, without_lists(&expected), "figures of {case:?}");
    assert_eq!(lent_to_product, expected_places, "places of {case:?}");
    expected
}

/// The answer by the rules, with the places that it writes. Refusal 13 comes last.
fn expected(case: &Case, lent: &mut Lent) -> Answer {
    let answer = case.answer();
    let centre = answer.scaled_centre.len();
    let weights = answer.weights.len();
    if lent.centre.len() < centre || lent.weights.len() < weights {
        return BUFFER_TOO_SHORT.into();
    }
    for (place, &value) in lent.centre.iter_mut().zip(&answer.scaled_centre) {
        *place = i64::try_from(value).expect("X fits");
    }
    for (place, &value) in lent.weights.iter_mut().zip(&answer.weights) {
        *place = u32::try_from(value).expect("a weight fits");
    }
    answer
}

/// The product's answer in numbers; it writes its lists to the lent slices.
fn product(case: &Case, lent: &mut Lent) -> Answer {
    let set = case.set();
    let rows = set.places.clone();
    let answer = match case {
        Case::Draw(_, budget) => {
            let Lent { centre, weights } = lent;
            drawing(cundarivo::draw_into(
                &rows, set.m, set.n, *budget, centre, weights,
            ))
        }
        Case::Check(_, weights) => {
            let list = weights.clone();
            let answer = cundarivo::check_into(&rows, set.m, set.n, &list, &mut lent.centre);
            assert_eq!(&list, weights, "weights lent to the check");
            checked(answer)
        }
    };
    assert_eq!(rows, set.places, "rows lent to the call");
    answer
}

fn drawing(answer: cundarivo::EnvelopeAnswer) -> Answer {
    Answer {
        number: answer.number,
        line: answer.line,
        settled: settled(answer.settled),
        moves: answer.moves,
        scaled_squared_radius: answer.scaled_squared_radius.into(),
        scaled_lower_bound: answer.scaled_lower_bound.into(),
        ..Answer::default()
    }
}

fn checked(answer: cundarivo::CheckAnswer) -> Answer {
    drawing(cundarivo::EnvelopeAnswer {
        number: answer.number,
        line: answer.line,
        settled: answer.settled,
        moves: 0,
        scaled_squared_radius: answer.scaled_squared_radius,
        scaled_lower_bound: answer.scaled_lower_bound,
    })
}

fn settled(number: u32) -> bool {
    assert!(number <= 1, "settled is 0 or 1");
    number == 1
}

fn without_lists(answer: &Answer) -> Answer {
    Answer {
        scaled_centre: Vec::new(),
        weights: Vec::new(),
        ..answer.clone()
    }
}

/// The same case through the wrapper's calls that answer with lists of their own.
pub fn compare_owned(case: &Case) {
    let set = case.set();
    let answer = match case {
        Case::Draw(_, budget) => owned_drawing(set.places.as_slice(), set.m, set.n, *budget),
        Case::Check(_, weights) => owned_check(set.places.as_slice(), set.m, set.n, weights),
    };
    assert_eq!(answer, case.answer(), "owned answer of {case:?}");
}

fn owned_drawing(rows: &[i32], m: usize, n: usize, budget: u32) -> Answer {
    match cundarivo::draw(rows, m, n, budget) {
        Err(refusal) => refused(refusal),
        Ok(drawing) => Answer {
            settled: drawing.ending == cundarivo::Ending::Settled,
            moves: drawing.moves,
            scaled_squared_radius: drawing.scaled_squared_radius.into(),
            scaled_lower_bound: drawing.scaled_lower_bound.into(),
            scaled_centre: widened(&drawing.scaled_centre),
            weights: widened(&drawing.weights),
            ..Answer::default()
        },
    }
}

fn owned_check(rows: &[i32], m: usize, n: usize, weights: &[u32]) -> Answer {
    match cundarivo::check(rows, m, n, weights) {
        Err(refusal) => refused(refusal),
        Ok(checked) => Answer {
            settled: checked.settled,
            scaled_squared_radius: checked.scaled_squared_radius.into(),
            scaled_lower_bound: checked.scaled_lower_bound.into(),
            scaled_centre: widened(&checked.scaled_centre),
            ..Answer::default()
        },
    }
}

fn refused(refusal: cundarivo::Refusal) -> Answer {
    Answer {
        number: refusal.number,
        line: refusal.line,
        ..Answer::default()
    }
}

fn widened<Number: Copy + Into<i128>>(list: &[Number]) -> Vec<i128> {
    list.iter().map(|&number| number.into()).collect()
}
