//! Records by the rules of document 01: a text is split at byte 10, a line at commas, every field is
//! read by itself, and what the record states is compared with what the check gives, in integers of
//! 128 bits. A record is written from formatted numbers, and turned back where it does not read back.

use crate::readings::EnvelopeFigures;
use crate::reference::{self, ChannelType, Reference};
use crate::rules::{
    self, BUDGET_LIMIT, BUFFER_TOO_SHORT, OUTSIDE_LIMITS, ROW_LIMIT, Refusal, WEIGHTS_DISAGREE,
};
use crate::sets::Set;

/// The number of the refusal of a record that is not in form.
pub const RECORD_FORM: u32 = 11;
/// The most digits of a record's number, besides its sign.
pub const DIGIT_LIMIT: usize = 19;
/// The first line that states a weight.
pub const FIRST_WEIGHT_LINE: usize = 4;

/// Rows with the codes of their channels' types, as they are lent to a call: the first n codes count.
#[derive(Clone, Debug, PartialEq, Eq)]
pub struct TypedRows {
    pub set: Set,
    pub types: Vec<u8>,
}

/// An envelope as it is lent to a call: its figures, and m to 256 weights.
#[derive(Clone, Debug, PartialEq, Eq)]
pub struct Envelope {
    pub figures: EnvelopeFigures,
    pub weights: Vec<u32>,
}

/// What a record in form states.
#[derive(Clone, Debug, PartialEq, Eq)]
pub struct Record {
    pub types: Vec<ChannelType>,
    /// X.
    pub scaled_centre: Vec<i128>,
    pub figures: StatedFigures,
    /// Rows counted from 1, rising, and their weights.
    pub weights: Vec<(usize, i128)>,
}

/// What the line of M and L states.
#[derive(Clone, Copy, Debug, PartialEq, Eq)]
pub struct StatedFigures {
    /// M.
    pub scaled_squared_radius: i128,
    /// L.
    pub scaled_lower_bound: i128,
    pub moves: u32,
    pub settled: bool,
}

impl TypedRows {
    /// The rows and types of an accepted reference text.
    pub fn read(reference: &Reference) -> TypedRows {
        TypedRows {
            set: Set {
                places: reference.table(),
                m: reference.rows.len(),
                n: reference.types.len(),
            },
            types: reference.types.clone(),
        }
    }

    /// The types of the n channels, or refusal 8 where a row or a type is outside the limits.
    pub(crate) fn within_limits(&self) -> Result<Vec<ChannelType>, Refusal> {
        rules::rows_within_limits(&self.set.places, self.set.m, self.set.n)?;
        reference::types_with(&self.types, self.set.n).ok_or(OUTSIDE_LIMITS)
    }
}

/// The envelope that a record states; refusals 8, 1, 11, 12, in this order.
pub fn read(rows: &TypedRows, text: &[u8]) -> Result<Envelope, Refusal> {
    let types = rows.within_limits()?;
    reference::length_within_limit(text)?;
    let record = in_form(text).map_err(|line| Refusal {
        number: RECORD_FORM,
        line: line as u32,
    })?;
    agreed(&record, &rows.set, &types).ok_or(WEIGHTS_DISAGREE)
}

/// Reads a record into lent slices; refusal 13 comes last.
pub fn read_into(
    rows: &TypedRows,
    text: &[u8],
    centre: &mut [i64],
    weights: &mut [u32],
) -> Result<Envelope, Refusal> {
    let envelope = read(rows, text)?;
    hand_out(&envelope, centre, weights)?;
    Ok(envelope)
}

/// Fills the first n places of the centre and the first m of the weights with those of an envelope
/// that was read; refusal 13.
pub fn hand_out(
    envelope: &Envelope,
    centre: &mut [i64],
    weights: &mut [u32],
) -> Result<(), Refusal> {
    let (own_centre, own_weights) = (&envelope.figures.scaled_centre, &envelope.weights);
    let centre = centre.get_mut(..own_centre.len()).ok_or(BUFFER_TOO_SHORT)?;
    let weights = weights
        .get_mut(..own_weights.len())
        .ok_or(BUFFER_TOO_SHORT)?;
    centre.copy_from_slice(own_centre);
    weights.copy_from_slice(own_weights);
    Ok(())
}

/// What a text states, or its first faulty line, counted from 1.
pub fn in_form(text: &[u8]) -> Result<Record, usize> {
    let lines: Vec<&[u8]> = text.split_inclusive(|&byte| byte == b'\n').collect();
    let line = |number: usize| lines.get(number - 1).copied();
    let types = line(1)
        .and_then(|line| reference::read_heading(line, b"ENV"))
        .ok_or(1_usize)?;
    let scaled_centre = line(2)
        .and_then(|line| read_centre(line, types.len()))
        .ok_or(2_usize)?;
    let figures = line(3).and_then(read_figures).ok_or(3_usize)?;
    let mut weights: Vec<(usize, i128)> = Vec::new();
    for number in FIRST_WEIGHT_LINE..=lines.len().max(FIRST_WEIGHT_LINE) {
        let (row, weight) = line(number).and_then(read_weight).ok_or(number)?;
        if weights.last().is_some_and(|&(above, _)| above >= row) {
            return Err(number);
        }
        weights.push((row, weight));
    }
    Ok(Record {
        types,
        scaled_centre,
        figures,
        weights,
    })
}

/// The fields behind the word of a line with its byte 10.
fn fields_behind<'a>(line: &'a [u8], word: &[u8]) -> Option<Vec<&'a [u8]>> {
    let mut fields = reference::fields(line.strip_suffix(b"\n")?);
    (fields.remove(0) == word).then_some(fields)
}

fn read_centre(line: &[u8], n: usize) -> Option<Vec<i128>> {
    let fields = fields_behind(line, b"C")?;
    let numbers: Option<Vec<i128>> = fields.iter().map(|field| number(field)).collect();
    numbers.filter(|numbers| numbers.len() == n)
}

fn read_figures(line: &[u8]) -> Option<StatedFigures> {
    let fields = fields_behind(line, b"R")?;
    let &[radius, bound, moves, letter] = fields.as_slice() else {
        return None;
    };
    let moves = number(moves).filter(|moves| (0..=i128::from(BUDGET_LIMIT)).contains(moves))?;
    let settled = match letter {
        b"S" => true,
        b"B" => false,
        _ => return None,
    };
    Some(StatedFigures {
        scaled_squared_radius: number(radius)?,
        scaled_lower_bound: number(bound)?,
        moves: moves as u32,
        settled,
    })
}

/// A row, counted from 1, and its weight.
fn read_weight(line: &[u8]) -> Option<(usize, i128)> {
    let fields = fields_behind(line, b"W")?;
    let &[row, weight] = fields.as_slice() else {
        return None;
    };
    let row = number(row).filter(|row| (1..=ROW_LIMIT as i128).contains(row))?;
    let weight = number(weight).filter(|&weight| weight > 0)?;
    Some((row as usize, weight))
}

/// A plain number of at most 19 digits.
fn number(field: &[u8]) -> Option<i128> {
    let digits = field.iter().filter(|byte| byte.is_ascii_digit()).count();
    reference::plain(field).filter(|_| digits <= DIGIT_LIMIT)
}

/// The envelope of a record whose types are these and whose every figure is what the check gives.
fn agreed(record: &Record, set: &Set, types: &[ChannelType]) -> Option<Envelope> {
    let weights = record.weight_list(set.m)?;
    let checked = rules::check(&set.places, set.m, set.n, &weights).ok()?;
    let stated = record.figures;
    let agrees = record.types == types
        && record.scaled_centre == checked.scaled_centre
        && stated.scaled_squared_radius == checked.scaled_squared_radius
        && stated.scaled_lower_bound == checked.scaled_lower_bound
        && stated.settled == checked.settled;
    let figures = EnvelopeFigures::new(types, &checked, stated.moves);
    agrees.then_some(Envelope { figures, weights })
}

impl Record {
    /// The weights of m rows; nothing where a row is above m, or a weight above 32 bits.
    fn weight_list(&self, m: usize) -> Option<Vec<u32>> {
        let mut list = vec![0; m];
        for &(row, weight) in &self.weights {
            *list.get_mut(row - 1)? = u32::try_from(weight).ok()?;
        }
        Some(list)
    }
}

/// The record of an envelope of m rows; refusals 8 and 12, in this order. It is 12 where the record
/// would be turned back.
pub fn write(envelope: &Envelope, places: &[i32], m: usize) -> Result<Vec<u8>, Refusal> {
    let (types, _) = envelope.figures.within_limits()?;
    let rows = TypedRows {
        set: Set {
            places: places.to_vec(),
            m,
            n: types.len(),
        },
        types: envelope.figures.types.clone(),
    };
    rows.within_limits()?;
    if !(m..=ROW_LIMIT).contains(&envelope.weights.len()) {
        return Err(OUTSIDE_LIMITS);
    }
    let text = print(envelope, &types);
    read(&rows, &text).map_err(|_| WEIGHTS_DISAGREE)?;
    Ok(text)
}

/// Writes a record into a lent buffer and gives its length; refusal 13 comes last.
pub fn write_into(
    envelope: &Envelope,
    places: &[i32],
    m: usize,
    buffer: &mut [u8],
) -> Result<usize, Refusal> {
    let text = write(envelope, places, m)?;
    place_text(&text, buffer)
}

/// Fills the first places of a buffer with a text and gives their number; refusal 13.
pub fn place_text(text: &[u8], buffer: &mut [u8]) -> Result<usize, Refusal> {
    rules::hand_out(text, buffer)?;
    Ok(text.len())
}

/// The text of an envelope whose types are these, whether it agrees with any rows or not.
pub fn print(envelope: &Envelope, types: &[ChannelType]) -> Vec<u8> {
    let Envelope { figures, weights } = envelope;
    let mut text = reference::print_heading("ENV", types);
    text += "C";
    let centre = &figures.scaled_centre[..types.len()];
    centre.iter().for_each(|place| text += &format!(",{place}"));
    let letter = ["B", "S"][figures.settled as usize];
    text += &format!(
        "\nR,{},{},{},{letter}\n",
        figures.scaled_squared_radius, figures.scaled_lower_bound, figures.moves
    );
    for (row, weight) in (1..).zip(weights).filter(|&(_, &weight)| weight > 0) {
        text += &format!("W,{row},{weight}\n");
    }
    text.into_bytes()
}
