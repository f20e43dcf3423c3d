//! Rows with types, envelopes drawn from them or checked against them, and their records as lines of
//! fields.

use crate::envelopes;
use crate::random::Random;
use crate::records::{self, Envelope, FIRST_WEIGHT_LINE, TypedRows};
use crate::reference::{self, CHANNEL_TYPES, ChannelType};
use crate::rules::{self, CHANNEL_LIMIT, ROW_LIMIT};
use crate::sets::{self, SHAPES, Set};
use crate::texts::{self, Fields};

/// The budgets that records are drawn with.
pub const BUDGETS: [u32; 8] = [0, 1, 2, 3, 17, 60, 1_000, 10_000];
/// A set of more rows is drawn with few moves only.
const FEW_ROWS: usize = 12;
const FEW_MOVES: u32 = 40;

/// The places of the lines of a record, counted from 0; the weights follow to the end.
pub const HEADING: usize = 0;
pub const CENTRE: usize = 1;
pub const FIGURES: usize = 2;
pub const WEIGHTS: usize = FIRST_WEIGHT_LINE - 1;

/// Rows within the limits with types, and an envelope of them.
#[derive(Clone, Debug)]
pub struct Enveloped {
    pub rows: TypedRows,
    pub envelope: Envelope,
}

impl Enveloped {
    /// An envelope drawn with one of the budgets.
    pub fn drawn(random: &mut Random, set: Set) -> Enveloped {
        let budget = random.pick(&BUDGETS);
        let budget = if set.m > FEW_ROWS {
            budget.min(FEW_MOVES)
        } else {
            budget
        };
        let drawing = rules::draw(&set.places, set.m, set.n, budget).expect("rows within limits");
        let weights = drawing.weights.iter().map(|&weight| weight as u32);
        Enveloped::new(random, set, weights.collect(), Some(drawing.moves))
    }

    /// An envelope of weights that the check accepts, with any moves.
    pub fn checked(random: &mut Random, set: Set) -> Enveloped {
        let weights = envelopes::accepted_weights(random, &set);
        Enveloped::new(random, set, weights, None)
    }

    /// All rows have a weight, so that the record has as many lines as it can have.
    pub fn full(random: &mut Random) -> Enveloped {
        let shape = random.pick(&SHAPES);
        let set = sets::set(random, shape, ROW_LIMIT, CHANNEL_LIMIT);
        let mut weights = vec![256; ROW_LIMIT];
        for _ in 0..ROW_LIMIT {
            let (from, to) = (random.index(ROW_LIMIT), random.index(ROW_LIMIT));
            let amount = random.below(weights[from]) as u32;
            weights[from] -= u64::from(amount);
            weights[to] += u64::from(amount);
        }
        let weights = weights.into_iter().map(|weight| weight as u32).collect();
        Enveloped::new(random, set, weights, None)
    }

    /// Moves that are not given are any within the limit.
    fn new(random: &mut Random, set: Set, weights: Vec<u32>, moves: Option<u32>) -> Enveloped {
        let types: Vec<ChannelType> = (0..set.n).map(|_| random.pick(&CHANNEL_TYPES)).collect();
        let figures = rules::check(&set.places, set.m, set.n, &weights).expect("weights of sum D");
        let moves = moves.unwrap_or_else(|| envelopes::any_moves(random));
        let figures = envelopes::lent(random, &types, &figures, moves);
        let mut rows = TypedRows {
            set,
            types: reference::codes(&types),
        };
        add_places(random, &mut rows);
        let envelope = Envelope { figures, weights };
        Enveloped { rows, envelope }
    }

    /// The same with channels of these types.
    pub fn with_types(mut self, types: &[ChannelType]) -> Enveloped {
        self.rows.types = reference::codes(types);
        self.envelope.figures.types = reference::codes(types);
        self
    }

    /// The types of the channels.
    pub fn types(&self) -> Vec<ChannelType> {
        reference::types_with(&self.rows.types, self.rows.set.n).expect("codes of types")
    }

    /// The record.
    pub fn text(&self) -> Vec<u8> {
        records::print(&self.envelope, &self.types())
    }

    /// The envelope as the record states it: without the places past n.
    pub fn stated(&self) -> Envelope {
        let mut stated = self.envelope.clone();
        stated.figures.types.truncate(self.rows.set.n);
        stated.figures.scaled_centre.truncate(self.rows.set.n);
        stated
    }
}

/// A set of any shape: most are small, some are full.
pub fn set(random: &mut Random) -> Set {
    let shape = random.pick(&SHAPES);
    let (m, n) = if random.once_in(16) {
        sets::size(random)
    } else {
        (1 + random.index(FEW_ROWS), 1 + random.index(CHANNEL_LIMIT))
    };
    sets::set(random, shape, m, n)
}

/// An envelope drawn or checked, of a set of any shape.
pub fn any(random: &mut Random) -> Enveloped {
    let set = set(random);
    if random.once_in(2) {
        Enveloped::drawn(random, set)
    } else {
        Enveloped::checked(random, set)
    }
}

/// Places past the m·n coordinates and past the n types, which do not count.
fn add_places(random: &mut Random, rows: &mut TypedRows) {
    for _ in 0..random.pick(&[0, 0, 1, 9]) {
        rows.set.places.push(random.number() as i32);
    }
    for _ in 0..random.pick(&[0, 0, 1, 9]) {
        rows.types.push(random.number() as u8);
    }
}

/// Weights lent with more places than m, all of them 0: none more, one more, or 256 in all.
pub fn lend_longer(random: &mut Random, weights: &mut Vec<u32>) {
    let m = weights.len();
    let places = random.pick(&[m, m, (m + 1).min(ROW_LIMIT), ROW_LIMIT]);
    weights.resize(places, 0);
}

/// A text as lines of fields, and what follows the last of them.
#[derive(Clone, Debug, PartialEq, Eq)]
pub struct RecordDraft {
    pub lines: Vec<Fields>,
    /// Byte 10, while the text is within the rules.
    pub end: Vec<u8>,
}

impl RecordDraft {
    pub fn of(text: &[u8]) -> RecordDraft {
        let (lines, end) = match text.strip_suffix(b"\n") {
            Some(lines) => (lines, &b"\n"[..]),
            None => (text, &b""[..]),
        };
        RecordDraft {
            lines: lines
                .split(|&byte| byte == b'\n')
                .map(texts::fields)
                .collect(),
            end: end.to_vec(),
        }
    }

    pub fn bytes(&self) -> Vec<u8> {
        let lines: Vec<Vec<u8>> = self.lines.iter().map(|line| line.join(&b',')).collect();
        let mut bytes = lines.join(&b'\n');
        bytes.extend(&self.end);
        bytes
    }

    /// The number in a field within the rules.
    pub fn number(&self, line: usize, field: usize) -> i128 {
        reference::plain(&self.lines[line][field]).expect("a number within the rules")
    }

    pub fn set_number(&mut self, line: usize, field: usize, number: i128) {
        self.lines[line][field] = number.to_string().into_bytes();
    }

    /// The fields of a line that are numbers, while the text is within the rules; of the heading,
    /// n alone.
    pub fn number_fields(&self, line: usize) -> std::ops::Range<usize> {
        match line {
            HEADING => 1..2,
            FIGURES => 1..4,
            _ => 1..self.lines[line].len(),
        }
    }
}
