//! The text of a record in plain Rust by its lines and fields: these are split, and numbers are read
//! and printed, by the standard library.

use crate::record::{Envelope, Number, Stated, TAGS};
use std::fmt::Write;

const DIGITS: usize = 19;
/// The first line of a weight.
const WEIGHTS: u32 = 4;

/// What a text states, or its first faulty line.
pub fn parse(text: &[u8]) -> Result<Stated, u32> {
    let mut stated = Stated::new();
    let mut lines = text.split_inclusive(|&byte| byte == b'\n');
    parse_heading(lines.next(), &mut stated).ok_or(1_u32)?;
    parse_centre(lines.next(), &mut stated).ok_or(2_u32)?;
    parse_figures(lines.next(), &mut stated).ok_or(3_u32)?;
    parse_weight(lines.next(), &mut stated).ok_or(WEIGHTS)?;
    for (line, number) in lines.zip(WEIGHTS + 1..) {
        parse_weight(Some(line), &mut stated).ok_or(number)?;
    }
    Ok(stated)
}

/// The fields behind the word of a line with its byte 10.
fn fields<'a>(line: Option<&'a [u8]>, word: &str) -> Option<impl Iterator<Item = &'a [u8]>> {
    let line = line?.strip_suffix(b"\n")?;
    let mut fields = line.split(|&byte| byte == b',');
    (fields.next()? == word.as_bytes()).then_some(fields)
}

fn parse_heading(line: Option<&[u8]>, stated: &mut Stated) -> Option<()> {
    let mut fields = fields(line, "ENV")?;
    let count = parse_number(fields.next()?)?;
    for tag in fields {
        let code = TAGS.iter().position(|own| own.as_bytes() == tag)? + 1;
        *stated.codes.get_mut(stated.n)? = code as u8;
        stated.n += 1;
    }
    (stated.n > 0 && !count.negative && count.magnitude == stated.n as u64).then_some(())
}

fn parse_centre(line: Option<&[u8]>, stated: &mut Stated) -> Option<()> {
    let mut fields = fields(line, "C")?;
    for place in &mut stated.centre[..stated.n] {
        *place = parse_number(fields.next()?)?;
    }
    fields.next().is_none().then_some(())
}

fn parse_figures(line: Option<&[u8]>, stated: &mut Stated) -> Option<()> {
    let mut fields = fields(line, "R")?;
    stated.radius = parse_number(fields.next()?)?;
    stated.bound = parse_number(fields.next()?)?;
    let moves = parse_number(fields.next()?)?;
    let &[letter] = fields.next()? else {
        return None;
    };
    stated.add_ending(moves, letter)?;
    fields.next().is_none().then_some(())
}

fn parse_weight(line: Option<&[u8]>, stated: &mut Stated) -> Option<()> {
    let mut fields = fields(line, "W")?;
    let row = parse_number(fields.next()?)?;
    let weight = parse_number(fields.next()?)?;
    stated.add_weight(row, weight)?;
    fields.next().is_none().then_some(())
}

/// The number in a field in form.
fn parse_number(field: &[u8]) -> Option<Number> {
    let text = std::str::from_utf8(field).ok()?;
    let digits = text.strip_prefix('-').unwrap_or(text);
    let negative = digits.len() < text.len();
    if digits.len() > DIGITS || digits.starts_with('+') {
        return None;
    }
    if digits.starts_with('0') && (negative || digits.len() > 1) {
        return None;
    }
    let magnitude = digits.parse().ok()?;
    Some(Number {
        negative,
        magnitude,
    })
}

/// The text of an envelope within the limits.
pub fn print(envelope: &Envelope<'_>) -> String {
    let mut text = String::new();
    add_lines(&mut text, envelope).expect("a string takes every text");
    text
}

fn add_lines(text: &mut String, envelope: &Envelope<'_>) -> std::fmt::Result {
    let figures = &envelope.figures;
    let n = figures.n;
    write!(text, "ENV,{n}")?;
    for code in &figures.codes[..n] {
        write!(text, ",{}", TAGS[usize::from(*code) - 1])?;
    }
    write!(text, "\nC")?;
    for place in &figures.scaled_centre[..n] {
        write!(text, ",{place}")?;
    }
    let (radius, bound) = (figures.scaled_squared_radius, figures.scaled_lower_bound);
    let moves = figures.moves;
    let letter = if figures.settled == 1 { 'S' } else { 'B' };
    writeln!(text, "\nR,{radius},{bound},{moves},{letter}")?;
    for (row, weight) in (1..).zip(envelope.weights) {
        if *weight > 0 {
            writeln!(text, "W,{row},{weight}")?;
        }
    }
    Ok(())
}
