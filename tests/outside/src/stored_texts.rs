//! Stored texts, for a program that reads them through the product.
//!
//! The input is one case after the other, up to its end; every number has its lowest byte first:
//!
//! | bytes | meaning |
//! |---|---|
//! | 3 | length of the text |
//! | 2 | number of places lent as the table, at most 2,048 |
//! | length | the text |
//!
//! A program has a table of 2,048 places, each -4,000 before every case, which no value reads as,
//! and lends the first of them. The output is a line a case, which ends in byte 10: eight plain
//! numbers, parted by commas.
//!
//! | number | meaning |
//! |---|---|
//! | 1 | the refusal's number, 0 where accepted |
//! | 2 | the refusal's line |
//! | 3 | m, 0 in a refusal |
//! | 4 | n, 0 in a refusal |
//! | 5 | the sum of place · (number there + 4,000) over the places 1 to 2,048 of the table |
//! | 6 | the sum of place · (code there) over the places 1 to 8 of the types, 0 past n |
//! | 7 | the byte, counted from 0, where the label of row m starts; of row 1 in a refusal |
//! | 8 | the length of that label; 7 and 8 are 0 where there is none |
//!
//! Places that a call leaves as they were add nothing to the sums. No term is negative, and every
//! sum is below 2^35. The label is there in a refusal by 7.

use crate::damage;
use crate::faults;
use crate::known_texts;
use crate::random::Random;
use crate::reference::{self, TABLE_LIMIT};
use crate::rules::{CHANNEL_LIMIT, COORDINATE_LIMIT};
use crate::texts::Draft;

/// The seed of the texts in the gate.
pub const SEED: u64 = 20_260_104;

const INPUT_LIMIT: usize = 200_000;
/// What stands in a place of the table before a call.
const UNTOUCHED: i32 = -COORDINATE_LIMIT;
const WHOLE_TEXTS: usize = 40;
/// How often each damage is done.
const DAMAGED_TEXTS: usize = 4;
const TWO_FAULTS: usize = 30;
/// Seeded texts with more bytes are left out.
const SMALL_TEXT: usize = 160;

/// A text, and how many places are lent as the table.
#[derive(Clone, Debug, PartialEq, Eq)]
pub struct StoredText {
    pub text: Vec<u8>,
    pub places: usize,
}

/// The known texts, the trial figures first; damaged texts of every kind; texts with two faults;
/// whole texts with a table of one place too few and of just enough.
pub fn stored_texts(random: &mut Random) -> Vec<StoredText> {
    let mut texts: Vec<Vec<u8>> = known_texts::all()
        .into_iter()
        .map(|known| known.text)
        .collect();
    let mut seeded = damaged(random);
    seeded.extend(two_faults(random));
    seeded.retain(|text| text.len() <= SMALL_TEXT);
    texts.extend(seeded);
    let mut list: Vec<StoredText> = texts.into_iter().map(with_whole_table).collect();
    for _ in 0..WHOLE_TEXTS {
        let draft = small_draft(random);
        list.extend([1, 0].map(|fewer| StoredText {
            text: draft.bytes(),
            places: draft.table.len() - fewer,
        }));
    }
    list
}

fn with_whole_table(text: Vec<u8>) -> StoredText {
    let places = TABLE_LIMIT;
    StoredText { text, places }
}

fn small_draft(random: &mut Random) -> Draft {
    let (m, n) = (1 + random.index(6), 1 + random.index(CHANNEL_LIMIT));
    Draft::new(random, m, n)
}

/// Each damage done to several small texts.
fn damaged(random: &mut Random) -> Vec<Vec<u8>> {
    let mut list = Vec::new();
    for kind in damage::damages() {
        for _ in 0..DAMAGED_TEXTS {
            let draft = small_draft(random);
            let mut text = draft.bytes();
            damage::damage(random, &mut text, kind, &draft.types);
            list.push(text);
        }
    }
    list
}

fn two_faults(random: &mut Random) -> Vec<Vec<u8>> {
    let sets = (0..TWO_FAULTS).flat_map(|_| faults::two_faults(random));
    sets.map(|faulty| faulty.text).collect()
}

/// The input of the texts.
pub fn input(list: &[StoredText]) -> Vec<u8> {
    let mut bytes = Vec::new();
    for StoredText { text, places } in list {
        bytes.extend(&(text.len() as u32).to_le_bytes()[..3]);
        bytes.extend((*places as u16).to_le_bytes());
        bytes.extend(text);
    }
    assert!(bytes.len() <= INPUT_LIMIT, "{} bytes", bytes.len());
    bytes
}

/// The output that is owed for the texts.
pub fn output(list: &[StoredText]) -> String {
    list.iter().map(line).collect()
}

fn line(case: &StoredText) -> String {
    let mut table = [UNTOUCHED; TABLE_LIMIT];
    let mut types = [0; CHANNEL_LIMIT];
    let read = reference::read_into(&case.text, &mut table[..case.places], &mut types);
    let (number, line, m, n) = match &read {
        Ok(reference) => (0, 0, reference.rows.len(), reference.types.len()),
        Err(refusal) => (refusal.number, refusal.line, 0, 0),
    };
    let label = reference::label(&reference::read(&case.text), m.max(1));
    let raised = table.map(|number| i64::from(number) - i64::from(UNTOUCHED));
    let numbers = [
        number.into(),
        line.into(),
        m as i64,
        n as i64,
        digest(&raised),
        digest(&types.map(i64::from)),
        label.start as i64,
        label.length as i64,
    ];
    numbers.map(|number| number.to_string()).join(",") + "\n"
}

/// The sum of place · (number there), places counted from 1.
fn digest(numbers: &[i64]) -> i64 {
    let terms = numbers
        .iter()
        .zip(1..)
        .map(|(number, place)| place * number);
    terms.sum()
}
