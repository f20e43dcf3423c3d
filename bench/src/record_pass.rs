//! The text of a record in plain Rust, written for speed: read in one pass over the bytes, and
//! printed digit by digit into an array. Neither allocates.

use crate::bytes::Bytes;
use crate::record::{CHANNELS, Envelope, Number, ROWS, Stated, TAGS};

const DIGITS: usize = 19;
/// The first line of a weight.
const WEIGHTS: u32 = 4;
/// Bytes that are enough for every record.
const MOST_BYTES: usize = 38 + 90 + 52 + 12 * ROWS;

/// What a text states, or its first faulty line.
pub fn parse(text: &[u8]) -> Result<Stated, u32> {
    let mut stated = Stated::new();
    let mut reader = Bytes { rest: text };
    (stated.n, stated.codes) = reader.heading(b"ENV").ok_or(1_u32)?;
    reader.centre(&mut stated).ok_or(2_u32)?;
    reader.figures(&mut stated).ok_or(3_u32)?;
    let mut line = WEIGHTS;
    loop {
        reader.weight(&mut stated).ok_or(line)?;
        if reader.rest.is_empty() {
            return Ok(stated);
        }
        line += 1;
    }
}

/// Each of these functions takes what it names with the byte behind it, and gives nothing where that
/// is out of form.
impl Bytes<'_> {
    fn word(&mut self, word: &[u8]) -> Option<()> {
        self.rest = self.rest.strip_prefix(word)?;
        Some(())
    }

    /// A heading of this word, with n and the codes of its n tags.
    pub fn heading(&mut self, word: &[u8]) -> Option<(usize, [u8; CHANNELS])> {
        self.word(word)?;
        self.word(b",")?;
        let n = usize::from(self.next()?.wrapping_sub(b'0'));
        if !(1..=CHANNELS).contains(&n) {
            return None;
        }
        let mut codes = [0; CHANNELS];
        for place in &mut codes[..n] {
            self.word(b",")?;
            let ends = |rest: &[u8]| matches!(rest.first(), Some(b',' | b'\n'));
            let (code, rest) = (1..).zip(TAGS).find_map(|(code, tag)| {
                let rest = self.rest.strip_prefix(tag.as_bytes())?;
                ends(rest).then_some((code, rest))
            })?;
            *place = code;
            self.rest = rest;
        }
        self.word(b"\n")?;
        Some((n, codes))
    }

    fn centre(&mut self, stated: &mut Stated) -> Option<()> {
        self.word(b"C,")?;
        let n = stated.n;
        for place in &mut stated.centre[..n - 1] {
            *place = self.number(b',')?;
        }
        stated.centre[n - 1] = self.number(b'\n')?;
        Some(())
    }

    fn figures(&mut self, stated: &mut Stated) -> Option<()> {
        self.word(b"R,")?;
        stated.radius = self.number(b',')?;
        stated.bound = self.number(b',')?;
        let moves = self.number(b',')?;
        stated.add_ending(moves, self.next()?)?;
        self.word(b"\n")
    }

    fn weight(&mut self, stated: &mut Stated) -> Option<()> {
        self.word(b"W,")?;
        let row = self.number(b',')?;
        let weight = self.number(b'\n')?;
        stated.add_weight(row, weight)
    }

    /// A number that this byte ends.
    fn number(&mut self, end: u8) -> Option<Number> {
        let mut byte = self.next()?;
        let negative = byte == b'-';
        if negative {
            byte = self.next()?;
        }
        if !byte.is_ascii_digit() || negative && byte == b'0' {
            return None;
        }
        let mut magnitude = u64::from(byte - b'0');
        for _ in 0..DIGITS {
            byte = self.next()?;
            if byte == end {
                return Some(Number {
                    negative,
                    magnitude,
                });
            }
            // A first digit of 0 is the only one.
            if !byte.is_ascii_digit() || magnitude == 0 {
                return None;
            }
            magnitude = magnitude
                .wrapping_mul(10)
                .wrapping_add(u64::from(byte - b'0'));
        }
        None
    }
}

/// A text and how many of its bytes count.
pub struct Text {
    bytes: [u8; MOST_BYTES],
    length: usize,
}

impl AsRef<[u8]> for Text {
    fn as_ref(&self) -> &[u8] {
        &self.bytes[..self.length]
    }
}

/// The text of an envelope within the limits.
pub fn print(envelope: &Envelope<'_>) -> Text {
    let mut text = Text::new();
    let figures = &envelope.figures;
    let n = figures.n;
    text.add(b"ENV,");
    text.add_number(n as u64);
    for code in &figures.codes[..n] {
        text.add(b",");
        text.add(TAGS[usize::from(*code) - 1].as_bytes());
    }
    text.add(b"\nC");
    for place in &figures.scaled_centre[..n] {
        text.add(if *place < 0 { b",-" } else { b"," });
        text.add_number(place.unsigned_abs());
    }
    text.add(b"\nR,");
    text.add_number(figures.scaled_squared_radius);
    text.add(b",");
    text.add_number(figures.scaled_lower_bound);
    text.add(b",");
    text.add_number(figures.moves.into());
    text.add(if figures.settled == 1 {
        b",S\n"
    } else {
        b",B\n"
    });
    for (row, weight) in (1..).zip(envelope.weights) {
        if *weight > 0 {
            text.add(b"W,");
            text.add_number(row);
            text.add(b",");
            text.add_number((*weight).into());
            text.add(b"\n");
        }
    }
    text
}

impl Text {
    pub fn new() -> Text {
        Text {
            bytes: [0; MOST_BYTES],
            length: 0,
        }
    }

    pub fn add(&mut self, bytes: &[u8]) {
        self.bytes[self.length..self.length + bytes.len()].copy_from_slice(bytes);
        self.length += bytes.len();
    }

    pub fn add_number(&mut self, number: u64) {
        let digits = number.checked_ilog10().unwrap_or(0) as usize + 1;
        let mut rest = number;
        for place in self.bytes[self.length..self.length + digits]
            .iter_mut()
            .rev()
        {
            *place = b'0' + (rest % 10) as u8;
            rest /= 10;
        }
        self.length += digits;
    }
}
