//! Records in plain Rust: what reading and writing do besides the text itself. The text is read and
//! printed in two ways, by `record_fields` and by `record_pass`.

use crate::plain::{Figures, Table};
use crate::verdict;

pub const ROWS: usize = 256;
pub const CHANNELS: usize = 8;
const MOVES_LIMIT: u64 = 1_000_000;
const TEXT_LIMIT: usize = 65_536;

/// The tags in the order of their codes.
pub const TAGS: [&str; CHANNELS] = ["TOC", "TC", "IC", "CND", "TMP", "PH", "FLW", "ORP"];

/// A refusal's number and line.
pub type Refusal = (u32, u32);

pub const OUTSIDE_LIMITS: Refusal = (8, 0);
const TEXT_LENGTH: Refusal = (1, 0);
const DISAGREES: Refusal = (12, 0);
pub const TOO_SHORT: Refusal = (13, 0);
const RECORD_FORM: u32 = 11;

/// A number of at most 19 digits.
#[derive(Clone, Copy, Default)]
pub struct Number {
    pub negative: bool,
    pub magnitude: u64,
}

impl Number {
    fn is_signed(self, number: i64) -> bool {
        self.negative == (number < 0) && self.magnitude == number.unsigned_abs()
    }

    fn is(self, number: u64) -> bool {
        !self.negative && self.magnitude == number
    }
}

/// What a record in form states.
pub struct Stated {
    pub n: usize,
    pub codes: [u8; CHANNELS],
    pub centre: [Number; CHANNELS],
    pub radius: Number,
    pub bound: Number,
    pub moves: u32,
    pub settled: bool,
    /// Weights above 32 bits stand as the largest number.
    pub weights: [u32; ROWS],
    /// The last row that has a weight, counted from 1.
    pub last_row: usize,
}

impl Stated {
    pub fn new() -> Stated {
        Stated {
            n: 0,
            codes: [0; CHANNELS],
            centre: [Number::default(); CHANNELS],
            radius: Number::default(),
            bound: Number::default(),
            moves: 0,
            settled: false,
            weights: [0; ROWS],
            last_row: 0,
        }
    }

    /// Takes in moves and letter; gives nothing where they are out of form.
    pub fn add_ending(&mut self, moves: Number, letter: u8) -> Option<()> {
        if moves.negative || moves.magnitude > MOVES_LIMIT || !matches!(letter, b'S' | b'B') {
            return None;
        }
        self.moves = moves.magnitude as u32;
        self.settled = letter == b'S';
        Some(())
    }

    /// Takes in a line of a weight; gives nothing where it is out of form.
    pub fn add_weight(&mut self, row: Number, weight: Number) -> Option<()> {
        let rises = !row.negative && row.magnitude > self.last_row as u64;
        if !rises || row.magnitude > ROWS as u64 || weight.negative || weight.magnitude == 0 {
            return None;
        }
        self.last_row = row.magnitude as usize;
        self.weights[self.last_row - 1] = u32::try_from(weight.magnitude).unwrap_or(u32::MAX);
        Some(())
    }

    /// The figures and X, where the record agrees with the rows and the codes.
    fn agreed(&self, table: &Table<'_>, codes: &[u8]) -> Option<(Figures, [i64; CHANNELS])> {
        if self.n != table.n || self.codes[..self.n] != *codes || self.last_row > table.m {
            return None;
        }
        let (checked, centre) = table.check(&self.weights[..table.m]).ok()?;
        let agrees = self
            .centre
            .iter()
            .zip(centre)
            .all(|(x, own)| x.is_signed(own))
            && self.radius.is(checked.scaled_squared_radius)
            && self.bound.is(checked.scaled_lower_bound)
            && self.settled == checked.settled;
        let moves = self.moves;
        agrees.then_some((Figures { moves, ..checked }, centre))
    }
}

/// Rows, and the codes of their channels.
pub struct Rows<'a> {
    pub places: &'a [i32],
    pub m: usize,
    pub n: usize,
    pub codes: &'a [u8],
}

impl<'a> Rows<'a> {
    /// The table and the first n codes.
    pub fn within_limits(&self) -> Result<(Table<'a>, &'a [u8]), Refusal> {
        let table = Table::new(self.places, self.m, self.n).map_err(|_| OUTSIDE_LIMITS)?;
        let codes = self.codes.get(..self.n).ok_or(OUTSIDE_LIMITS)?;
        match codes.iter().all(|code| (1..=8).contains(code)) {
            true => Ok((table, codes)),
            false => Err(OUTSIDE_LIMITS),
        }
    }
}

/// Reads a record, with `parse` for its text, and fills the lent slices as the library does. `parse`
/// gives the first faulty line of a text that is out of form.
pub fn read(
    parse: impl Fn(&[u8]) -> Result<Stated, u32>,
    rows: &Rows<'_>,
    text: &[u8],
    centre: &mut [i64],
    weights: &mut [u32],
) -> Result<Figures, Refusal> {
    let (table, codes) = rows.within_limits()?;
    if text.is_empty() || text.len() > TEXT_LIMIT {
        return Err(TEXT_LENGTH);
    }
    let stated = parse(text).map_err(|line| (RECORD_FORM, line))?;
    let (figures, own) = stated.agreed(&table, codes).ok_or(DISAGREES)?;
    let centre = centre.get_mut(..rows.n).ok_or(TOO_SHORT)?;
    let weights = weights.get_mut(..rows.m).ok_or(TOO_SHORT)?;
    centre.copy_from_slice(&own[..rows.n]);
    weights.copy_from_slice(&stated.weights[..rows.m]);
    Ok(figures)
}

/// An envelope.
pub struct Envelope<'a> {
    pub figures: verdict::Figures<'a>,
    pub weights: &'a [u32],
}

impl Envelope<'_> {
    fn agrees(&self, table: &Table<'_>) -> bool {
        let (own, past) = self.weights.split_at(table.m);
        let Ok((checked, centre)) = table.check(own) else {
            return false;
        };
        let figures = &self.figures;
        past.iter().all(|&weight| weight == 0)
            && figures.scaled_centre[..figures.n] == centre[..figures.n]
            && figures.scaled_squared_radius == checked.scaled_squared_radius
            && figures.scaled_lower_bound == checked.scaled_lower_bound
            && figures.settled == u32::from(checked.settled)
    }
}

/// Writes a record of m rows, with `print` for its text, into a lent buffer as the library does.
/// Gives its length.
pub fn write<Text: AsRef<[u8]>>(
    print: impl Fn(&Envelope<'_>) -> Text,
    envelope: &Envelope<'_>,
    places: &[i32],
    m: usize,
    buffer: &mut [u8],
) -> Result<usize, Refusal> {
    let table = Table::new(places, m, envelope.figures.n).map_err(|_| OUTSIDE_LIMITS)?;
    if !envelope.figures.within_limits() || !(m..=ROWS).contains(&envelope.weights.len()) {
        return Err(OUTSIDE_LIMITS);
    }
    if !envelope.agrees(&table) {
        return Err(DISAGREES);
    }
    let text = print(envelope);
    let text = text.as_ref();
    buffer
        .get_mut(..text.len())
        .ok_or(TOO_SHORT)?
        .copy_from_slice(text);
    Ok(text.len())
}
