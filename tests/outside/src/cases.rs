//! Cases: the arguments of one call, and the answer that the rules give.

use crate::random::Random;
use crate::rules::{self, BUDGET_LIMIT, Drawing, Figures, Refusal, TOTAL};
use crate::sets::{self, DAMAGES, Damage, Set};

/// The arguments of one call.
#[derive(Clone, Debug, PartialEq, Eq)]
pub enum Case {
    Draw(Set, u32),
    Check(Set, Vec<u32>),
}

/// All that a call answers. A refusal's other figures are 0 and its lists are empty; a check makes
/// no moves and hands back no weights.
#[derive(Clone, Debug, Default, PartialEq, Eq)]
pub struct Answer {
    pub number: u32,
    pub line: u32,
    pub settled: bool,
    pub moves: u32,
    pub scaled_squared_radius: i128,
    pub scaled_lower_bound: i128,
    pub scaled_centre: Vec<i128>,
    pub weights: Vec<i128>,
}

impl From<Refusal> for Answer {
    fn from(refusal: Refusal) -> Answer {
        Answer {
            number: refusal.number,
            line: refusal.line,
            ..Answer::default()
        }
    }
}

impl From<Figures> for Answer {
    fn from(figures: Figures) -> Answer {
        Answer {
            settled: figures.settled,
            scaled_squared_radius: figures.scaled_squared_radius,
            scaled_lower_bound: figures.scaled_lower_bound,
            scaled_centre: figures.scaled_centre,
            ..Answer::default()
        }
    }
}

impl From<Drawing> for Answer {
    fn from(drawing: Drawing) -> Answer {
        Answer {
            moves: drawing.moves,
            weights: drawing.weights,
            ..Answer::from(drawing.figures)
        }
    }
}

impl Case {
    pub fn set(&self) -> &Set {
        match self {
            Case::Draw(set, _) | Case::Check(set, _) => set,
        }
    }

    pub fn answer(&self) -> Answer {
        match self {
            Case::Draw(set, budget) => answer(rules::draw(&set.places, set.m, set.n, *budget)),
            Case::Check(set, weights) => answer(rules::check(&set.places, set.m, set.n, weights)),
        }
    }
}

fn answer<Accepted: Into<Answer>>(outcome: Result<Accepted, Refusal>) -> Answer {
    match outcome {
        Ok(accepted) => accepted.into(),
        Err(refusal) => refusal.into(),
    }
}

/// A budget within the limit.
pub fn budget(random: &mut Random) -> u32 {
    match random.below(20) {
        0..2 => 0,
        2..4 => 1,
        4..6 => 2,
        6..11 => random.between(3, 60) as u32,
        11..17 => 10_000,
        _ => BUDGET_LIMIT,
    }
}

/// A drawing with the set, the budget or both damaged.
pub fn damaged_draw(random: &mut Random, set: &Set, budget: u32) -> (Option<Damage>, Case) {
    let damage = (!random.once_in(3)).then(|| random.pick(&DAMAGES));
    let damaged = damaged_set(random, set, damage);
    let above = random.pick(&[BUDGET_LIMIT + 1, u32::MAX]);
    let within = damage.is_some() && random.once_in(2);
    (
        damage,
        Case::Draw(damaged, if within { budget } else { above }),
    )
}

/// A check with the set damaged, whatever its weights are.
pub fn damaged_check(random: &mut Random, set: &Set, weights: &[u32]) -> (Option<Damage>, Case) {
    let damage = Some(random.pick(&DAMAGES));
    let damaged = damaged_set(random, set, damage);
    let mut list = weights.to_vec();
    // The list keeps to m places, so that the set alone is at fault.
    if matches!(damage, Some(Damage::NoRow | Damage::TooManyRows)) {
        list.resize(damaged.m, 0);
    }
    (damage, Case::Check(damaged, list))
}

fn damaged_set(random: &mut Random, set: &Set, damage: Option<Damage>) -> Set {
    let mut damaged = set.clone();
    if let Some(damage) = damage {
        sets::damage(random, &mut damaged, damage);
    }
    damaged
}

/// Kinds of weights for the check of a set.
#[derive(Clone, Copy, Debug, PartialEq, Eq, PartialOrd, Ord)]
pub enum Weighting {
    Drawn,
    /// Drawn, and one move more where they are not Settled.
    Moved,
    /// Drawn, and a weight of 1 to 3 taken from one row to another.
    Shifted,
    Random,
    /// Random over few rows.
    Sparse,
    OneRow,
    ListShort,
    ListLong,
    /// One place too many, but of weight 0: the sum is right.
    ListLongByZero,
    ListEmpty,
    SumBelow,
    SumAbove,
    /// A sum of 2^32 + 65,536, which is 65,536 in 32 bits; off by one in a set of one row.
    SumWraps,
    Huge,
    Zero,
}

pub const WEIGHTINGS: [Weighting; 15] = [
    Weighting::Drawn,
    Weighting::Moved,
    Weighting::Shifted,
    Weighting::Random,
    Weighting::Sparse,
    Weighting::OneRow,
    Weighting::ListShort,
    Weighting::ListLong,
    Weighting::ListLongByZero,
    Weighting::ListEmpty,
    Weighting::SumBelow,
    Weighting::SumAbove,
    Weighting::SumWraps,
    Weighting::Huge,
    Weighting::Zero,
];

/// The first six kinds are accepted; they are taken twice as often as the others.
pub fn weighting(random: &mut Random) -> Weighting {
    if random.once_in(3) {
        random.pick(&WEIGHTINGS[6..])
    } else {
        accepted_weighting(random)
    }
}

pub fn accepted_weighting(random: &mut Random) -> Weighting {
    random.pick(&WEIGHTINGS[..6])
}

/// Weights of a kind, for a set within the limits and weights drawn for it.
pub fn weights(random: &mut Random, set: &Set, drawn: &[i128], kind: Weighting) -> Vec<u32> {
    match kind {
        Weighting::Drawn => narrow(drawn),
        Weighting::Moved => {
            let moved = rules::one_move(&set.rows(), drawn);
            narrow(&moved.unwrap_or(drawn.to_vec()))
        }
        Weighting::Shifted => shifted(random, narrow(drawn)),
        Weighting::Random => shared_out(random, set.m, 4 * set.m),
        Weighting::Sparse => shared_out(random, set.m, 1 + set.m.min(4)),
        Weighting::OneRow => shared_out(random, set.m, 1),
        _ => {
            let whole = shared_out(random, set.m, 2 * set.m);
            faulty(random, whole, kind)
        }
    }
}

fn narrow(weights: &[i128]) -> Vec<u32> {
    weights.iter().map(|&weight| weight as u32).collect()
}

fn shifted(random: &mut Random, mut weights: Vec<u32>) -> Vec<u32> {
    let from = random.index(weights.len());
    let to = random.index(weights.len());
    let amount = weights[from].min(random.between(1, 3) as u32);
    weights[from] -= amount;
    weights[to] += amount;
    weights
}

/// 65,536 shared out in a number of parts of random size, each to a random row.
fn shared_out(random: &mut Random, m: usize, parts: usize) -> Vec<u32> {
    let mut weights = vec![0; m];
    let mut left = TOTAL as u32;
    for _ in 1..parts {
        let part = random.below(u64::from(left / 2) + 1) as u32;
        weights[random.index(m)] += part;
        left -= part;
    }
    weights[random.index(m)] += left;
    weights
}

/// Weights made faulty in the way that `kind` names.
fn faulty(random: &mut Random, mut weights: Vec<u32>, kind: Weighting) -> Vec<u32> {
    let row = random.index(weights.len());
    match kind {
        Weighting::ListShort => drop(weights.pop()),
        Weighting::ListLong => weights.push(random.pick(&[1, 65_536, u32::MAX])),
        Weighting::ListLongByZero => weights.push(0),
        Weighting::ListEmpty => weights.clear(),
        Weighting::SumBelow => *heaviest(&mut weights) -= 1,
        Weighting::SumAbove => weights[row] += 1,
        Weighting::SumWraps => add_without_carry(&mut weights, row),
        Weighting::Huge => weights[row] = random.pick(&[u32::MAX, 1 << 31, 65_537]),
        _ => weights.fill(0),
    }
    weights
}

fn heaviest(weights: &mut [u32]) -> &mut u32 {
    weights.iter_mut().max().expect("m is 1 or more")
}

/// Adds 2^32 to the sum, as 2^32 - 1 on one row and 1 on the next, with the row's own weight moved
/// to the next too.
fn add_without_carry(weights: &mut [u32], row: usize) {
    let next = (row + 1) % weights.len();
    let own = std::mem::replace(&mut weights[row], u32::MAX);
    if next != row {
        weights[next] += own + 1;
    }
}
