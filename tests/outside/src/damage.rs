//! Damage done to a text as bytes, so that one kind can follow another.

use crate::faults::{self, NO_WORDS, ROW_FAULTS, RowFault};
use crate::random::Random;
use crate::reference::{ChannelType, TEXT_LIMIT};
use crate::rules::ROW_LIMIT;
use crate::texts::{self, Fields};

#[derive(Clone, Copy, Debug, PartialEq, Eq)]
pub enum Damage {
    /// A fault put into a row.
    Row(RowFault),
    /// A fault put into the heading.
    Heading,
    /// A byte changed to any other.
    ByteChanged,
    /// A byte changed to one that texts are made of, or to one next to these.
    ByteExchanged,
    ByteAdded,
    ByteRemoved,
    ByteDoubled,
    StretchDoubled,
    StretchRemoved,
    CommaAdded,
    CommaRemoved,
    LineEndAdded,
    /// A byte 10 removed: two lines are joined, or the last one has no end.
    LineEndRemoved,
    CutOff,
    LineMoved,
    LineDoubled,
    LineDropped,
    NoRow,
    Emptied,
    TooManyRows,
    /// A few bytes less than the limit, or exactly the limit.
    AtTheLimit,
    AboveTheLimit,
}

/// Kinds that leave a small text small.
const SMALL: [Damage; 17] = [
    Damage::Heading,
    Damage::ByteChanged,
    Damage::ByteExchanged,
    Damage::ByteAdded,
    Damage::ByteRemoved,
    Damage::ByteDoubled,
    Damage::StretchDoubled,
    Damage::StretchRemoved,
    Damage::CommaAdded,
    Damage::CommaRemoved,
    Damage::LineEndAdded,
    Damage::LineEndRemoved,
    Damage::CutOff,
    Damage::LineMoved,
    Damage::LineDoubled,
    Damage::LineDropped,
    Damage::NoRow,
];

const OTHERS: [Damage; 4] = [
    Damage::Emptied,
    Damage::TooManyRows,
    Damage::AtTheLimit,
    Damage::AboveTheLimit,
];

/// The small kinds that any text takes: those of bytes, stretches and lines.
pub const OF_ANY_TEXT: &[Damage] = SMALL.split_at(1).1;

/// Bytes that texts are made of, and bytes next to these.
const BYTES: &[u8] = b"0123456789<-+,\nABCREFTOZaz \r.;:/@[\t\"'\0\x7f\x80\xff";

/// Every kind.
pub fn damages() -> Vec<Damage> {
    let rows = ROW_FAULTS.map(Damage::Row);
    [&rows[..], &SMALL, &OTHERS].concat()
}

/// A kind; the ones that make texts large or empty are rare.
pub fn kind(random: &mut Random) -> Damage {
    match random.below(80) {
        0..2 => random.pick(&OTHERS),
        2..32 => Damage::Row(faults::row_fault(random)),
        _ => random.pick(&SMALL),
    }
}

/// Damages a text, of which `types` are those of the heading when it was whole. An empty text stays
/// empty.
pub fn damage(random: &mut Random, text: &mut Vec<u8>, damage: Damage, types: &[ChannelType]) {
    if text.is_empty() {
        return;
    }
    let place = random.index(text.len());
    let stretch = place..(place + 1 + random.index(20)).min(text.len());
    match damage {
        Damage::Row(fault) => put_in_row(random, text, fault, types),
        Damage::Heading => put_in_heading(random, text),
        Damage::ByteChanged => text[place] ^= random.between(1, 255) as u8,
        Damage::ByteExchanged => text[place] = random.pick(BYTES),
        Damage::ByteAdded => text.insert(place, random.pick(BYTES)),
        Damage::ByteRemoved => drop(text.remove(place)),
        Damage::ByteDoubled => text.insert(place, text[place]),
        Damage::StretchDoubled => drop(text.splice(place..place, text[stretch].to_vec())),
        Damage::StretchRemoved => drop(text.drain(stretch)),
        Damage::CommaAdded => text.insert(place, b','),
        Damage::CommaRemoved => remove_one(random, text, b','),
        Damage::LineEndAdded => text.insert(place, b'\n'),
        Damage::LineEndRemoved => remove_one(random, text, b'\n'),
        Damage::CutOff => text.truncate(place),
        Damage::LineMoved | Damage::LineDoubled | Damage::LineDropped => {
            change_lines(random, text, damage);
        }
        Damage::NoRow => text.truncate(lines(text)[0].len()),
        Damage::Emptied => text.clear(),
        Damage::TooManyRows => text.extend(more_rows(types.len(), ROW_LIMIT)),
        Damage::AtTheLimit => stretch_to(random, text, TEXT_LIMIT - place % 3, types.len()),
        Damage::AboveTheLimit => stretch_to(random, text, TEXT_LIMIT + 1 + place % 3, types.len()),
    }
}

/// The lines with their bytes 10; the last one can lack it.
fn lines(text: &[u8]) -> Vec<Vec<u8>> {
    text.split_inclusive(|&byte| byte == b'\n')
        .map(<[u8]>::to_vec)
        .collect()
}

fn fields(line: &[u8]) -> Fields {
    texts::fields(line.strip_suffix(b"\n").unwrap_or(line))
}

/// Puts a fault into a row, a repeated label below the first row; where there is none, into the
/// last line.
fn put_in_row(random: &mut Random, text: &mut Vec<u8>, fault: RowFault, types: &[ChannelType]) {
    let mut lines = lines(text);
    let last = lines.len() - 1;
    let first = if fault == RowFault::LabelRepeated {
        2
    } else {
        1
    };
    let first = last.min(first);
    let place = first + random.index(last - first + 1);
    let used = fields(&lines[last.min(1)])[0].clone();
    let mut row = fields(&lines[place]);
    faults::put(random, &mut row, fault, types, &used);
    lines[place] = texts::line(&row);
    *text = lines.concat();
}

fn put_in_heading(random: &mut Random, text: &mut Vec<u8>) {
    let mut lines = lines(text);
    let mut heading = fields(&lines[0]);
    if heading.len() > 2 {
        faults::put_in_heading(random, &mut heading, &NO_WORDS);
        lines[0] = texts::line(&heading);
        *text = lines.concat();
    }
}

/// Removes one of the bytes with this value, where there is one.
fn remove_one(random: &mut Random, text: &mut Vec<u8>, value: u8) {
    let places: Vec<usize> = (0..text.len())
        .filter(|&place| text[place] == value)
        .collect();
    if !places.is_empty() {
        text.remove(random.pick(&places));
    }
}

fn change_lines(random: &mut Random, text: &mut Vec<u8>, damage: Damage) {
    let mut lines = lines(text);
    let line = lines.remove(random.index(lines.len()));
    let copies = match damage {
        Damage::LineMoved => 1,
        Damage::LineDoubled => 2,
        _ => 0,
    };
    for _ in 0..copies {
        lines.insert(random.index(lines.len() + 1), line.clone());
    }
    *text = lines.concat();
}

/// Rows within the rules of every type, with labels of their own.
fn more_rows(channels: usize, count: usize) -> Vec<u8> {
    let row = |index: usize| format!("-00{index}{}\n", ",1".repeat(channels));
    (0..count).map(row).collect::<String>().into_bytes()
}

/// Stretches a text to a length: one byte repeated at the end, before the last byte 10 or anywhere,
/// or rows at the end.
fn stretch_to(random: &mut Random, text: &mut Vec<u8>, length: usize, channels: usize) {
    let more = length.saturating_sub(text.len());
    let place = match random.below(4) {
        0 => random.index(text.len()),
        1 => text.len(),
        _ => text.len() - 1,
    };
    if random.once_in(4) {
        text.extend(more_rows(channels, more / 7))
    } else {
        drop(text.splice(place..place, vec![random.pick(b"0119A,\n<-"); more]))
    }
    text.truncate(length);
}
