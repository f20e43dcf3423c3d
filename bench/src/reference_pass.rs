//! A reference text in plain Rust, written for speed: its length is counted first, so that values are
//! printed without a branch straight into the lent buffer, and labels are remembered as numbers in a
//! table that is found by a hash. Nothing is allocated.

use crate::record::{ROWS, TAGS};
use crate::reference::{Row, Way};

const DIGITS: usize = 4;
/// Comma, sign and digits of a value.
const VALUE_BYTES: usize = 2 + DIGITS;
/// Bytes that are enough for every row.
const ROW_BYTES: usize = 61;
/// At most half of the slots are taken.
const SLOTS: usize = 2 * ROWS;
/// 2^64 over the golden ratio.
const SPREAD: u64 = 0x9E37_79B9_7F4A_7C15;

pub struct Pass {
    /// Labels as numbers; 0 is none, since no byte of a label is 0.
    labels: [u128; SLOTS],
}

impl Default for Pass {
    fn default() -> Pass {
        Pass { labels: [0; SLOTS] }
    }
}

impl<'a> Way<'a> for Pass {
    fn remember(&mut self, label: &'a [u8]) -> bool {
        let mut bytes = [0; size_of::<u128>()];
        bytes[..label.len()].copy_from_slice(label);
        let number = u128::from_le_bytes(bytes);
        let folded = number as u64 ^ ((number >> 64) as u64).rotate_left(29);
        let mut slot = (folded.wrapping_mul(SPREAD) >> 32) as usize % SLOTS;
        while self.labels[slot] != 0 {
            if self.labels[slot] == number {
                return false;
            }
            slot = (slot + 1) % SLOTS;
        }
        self.labels[slot] = number;
        true
    }

    fn print<'r>(
        codes: &[u8],
        mut rows: impl DoubleEndedIterator<Item = Row<'r>> + Clone,
        buffer: &mut [u8],
    ) -> Option<usize> {
        let heading = 6 + codes.iter().map(|code| 1 + tag(*code).len()).sum::<usize>();
        let length = heading + rows.clone().map(row_length).sum::<usize>();
        let mut text = Text {
            bytes: buffer.get_mut(..length)?,
            length: 0,
        };
        text.add_heading(codes);
        let last = rows.next_back()?;
        rows.for_each(|row| text.add_row(row));
        text.add_last_row(last);
        Some(length)
    }
}

fn tag(code: u8) -> &'static [u8] {
    TAGS[usize::from(code) - 1].as_bytes()
}

fn digit_count(magnitude: u32) -> usize {
    let above = |limit| usize::from(magnitude >= limit);
    1 + above(10) + above(100) + above(1_000)
}

fn row_length((label, values): Row<'_>) -> usize {
    let bytes = |value: &i32| 1 + usize::from(*value < 0) + digit_count(value.unsigned_abs());
    label.len() + values.iter().map(bytes).sum::<usize>() + 1
}

/// A text and how many of its bytes are printed.
struct Text<'a> {
    bytes: &'a mut [u8],
    length: usize,
}

impl Text<'_> {
    fn add(&mut self, bytes: &[u8]) {
        self.bytes[self.length..self.length + bytes.len()].copy_from_slice(bytes);
        self.length += bytes.len();
    }

    fn add_heading(&mut self, codes: &[u8]) {
        self.add(&[b'R', b'E', b'F', b',', b'0' + codes.len() as u8]);
        for code in codes {
            self.add(b",");
            self.add(tag(*code));
        }
        self.add(b"\n");
    }

    fn add_row(&mut self, (label, values): Row<'_>) {
        self.add(label);
        values.iter().for_each(|value| self.add_value(*value));
        self.add(b"\n");
    }

    /// A value writes places behind it, and behind the last row there are none.
    fn add_last_row(&mut self, row: Row<'_>) {
        let mut line = Text {
            bytes: &mut [0; ROW_BYTES + VALUE_BYTES],
            length: 0,
        };
        line.add_row(row);
        self.add(&line.bytes[..line.length]);
    }

    /// Four digits are made, and those in front of the first that counts are shifted out. What is
    /// written behind a value of fewer digits is written again by what follows.
    fn add_value(&mut self, value: i32) {
        let magnitude = value.unsigned_abs();
        let (high, low) = (magnitude / 100, magnitude % 100);
        let digits = [high / 10, high % 10, low / 10, low % 10].map(|digit| b'0' + digit as u8);
        let count = digit_count(magnitude);
        let shifted = u32::from_le_bytes(digits) >> (8 * (DIGITS - count));
        let first = 1 + usize::from(value < 0);
        let places = &mut self.bytes[self.length..self.length + VALUE_BYTES];
        places[..2].copy_from_slice(b",-");
        places[first..first + DIGITS].copy_from_slice(&shifted.to_le_bytes());
        self.length += first + count;
    }
}
