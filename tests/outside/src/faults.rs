//! Faults of a line, and texts with two of them in both orders, whose refusal is known.

use crate::random::Random;
use crate::reference::{
    ChannelType, HEADING, LABEL_LIMIT, LABEL_REPEATED, LINE_FORM, ROW_COUNT, VALUE_RANGE,
};
use crate::rules::{ROW_LIMIT, Refusal};
use crate::texts::{self, Draft, Fields};

/// A fault of one row's line.
#[derive(Clone, Copy, Debug, PartialEq, Eq)]
pub enum RowFault {
    ValueForm,
    /// A number of many digits, but not in form.
    LongValueForm,
    FieldAdded,
    FieldDropped,
    LabelForm,
    /// Byte 13 before byte 10.
    CarriageReturn,
    EmptyLine,
    ValueRange,
    /// A number of many digits, in form.
    LongValue,
    LabelRepeated,
}

/// The faults of form first, then of range, then of the label.
pub const ROW_FAULTS: [RowFault; 10] = [
    RowFault::ValueForm,
    RowFault::LongValueForm,
    RowFault::FieldAdded,
    RowFault::FieldDropped,
    RowFault::LabelForm,
    RowFault::CarriageReturn,
    RowFault::EmptyLine,
    RowFault::ValueRange,
    RowFault::LongValue,
    RowFault::LabelRepeated,
];

impl RowFault {
    /// The number of the refusal.
    pub fn number(self) -> u32 {
        match self {
            RowFault::LabelRepeated => LABEL_REPEATED,
            RowFault::ValueRange | RowFault::LongValue => VALUE_RANGE,
            _ => LINE_FORM,
        }
    }
}

/// A fault; each of the three numbers is as likely as the others.
pub fn row_fault(random: &mut Random) -> RowFault {
    let (form, others) = ROW_FAULTS.split_at(7);
    let (range, label) = others.split_at(2);
    let group = random.pick(&[form, range, label]);
    random.pick(group)
}

/// Value fields that are not in form.
pub const NO_VALUES: [&str; 26] = [
    "", "-", "<", "<<1", "-0", "<-0", "00", "05", "-05", "<05", "<00", "+1", "--1", "-<1", "<1<",
    "1 ", " 1", "1.0", "1-", "0x1", "1e3", "A", "\"1\"", "١", "\0", "1\0",
];

/// Labels that are not in form.
const NO_LABELS: [&str; 11] = [
    "", "a", "Ab", "A_B", "A B", " ", "A.", "Ä", "\"A\"", "<1", "A\0",
];

/// Puts a fault into a row's fields; `used` is the label of an earlier row.
pub fn put(
    random: &mut Random,
    row: &mut Fields,
    fault: RowFault,
    types: &[ChannelType],
    used: &[u8],
) {
    let channel = random.index(types.len());
    // A damaged row can have fewer fields.
    let place = (channel + 1).min(row.len() - 1);
    let value = &mut row[place];
    match fault {
        RowFault::ValueForm => *value = random.pick(&NO_VALUES).into(),
        RowFault::LongValueForm => *value = long_number(random, &["0", "-0", "<0", "+", "<<"]),
        RowFault::FieldAdded => {
            let place = random.index(row.len() + 1);
            row.insert(place, random.pick(&["0", "", "A"]).into());
        }
        RowFault::FieldDropped => drop(row.remove(place)),
        RowFault::LabelForm => row[0] = no_label(random),
        RowFault::CarriageReturn => row.last_mut().expect("a field").push(b'\r'),
        RowFault::EmptyLine => *row = vec![Vec::new()],
        RowFault::ValueRange => *value = out_of_range(random, &types[channel]).into_bytes(),
        RowFault::LongValue => *value = long_number(random, &["", "-", "<", "<-"]),
        RowFault::LabelRepeated => row[0] = used.to_vec(),
    }
}

/// A label that is not in form.
pub fn no_label(random: &mut Random) -> Vec<u8> {
    match random.below(3) {
        0 => vec![b'A'; LABEL_LIMIT + 1 + random.index(20)],
        1 => vec![random.between(128, 255) as u8],
        _ => random.pick(&NO_LABELS).into(),
    }
}

/// A prefix and at least five digits, the first of them above 0.
pub fn long_number(random: &mut Random, prefixes: &[&str]) -> Vec<u8> {
    let digit = |random: &mut Random, low: u8| random.between(low.into(), b'9'.into()) as u8;
    let mut field = Vec::from(random.pick(prefixes));
    field.push(digit(random, b'1'));
    let more = random.pick(&[4, 9, 10, 18, 19, 20, 38, 39, 300]);
    field.extend((0..more).map(|_| digit(random, b'0')));
    field
}

/// A value in form outside the range of a type: just outside, far, or one that is within the range
/// in 16, 32 or 64 bits.
pub fn out_of_range(random: &mut Random, channel: &ChannelType) -> String {
    let (low, high) = (i128::from(channel.low), i128::from(channel.high));
    let within = i128::from(random.between(1, channel.high));
    let wrapping = within + (1 << random.pick(&[16, 32, 64]));
    let plain = [
        low - 1,
        high + 1,
        low - 999,
        high + 999,
        wrapping,
        -wrapping,
    ];
    let below = [0, -1, -within, high + 1, wrapping, -wrapping];
    if random.once_in(2) {
        random.pick(&plain).to_string()
    } else {
        format!("<{}", random.pick(&below))
    }
}

/// Words that no heading of a reference text begins with.
pub const NO_WORDS: [&str; 8] = [
    "",
    "ref",
    "RE",
    "REFS",
    "REF ",
    " REF",
    "ENV",
    "\u{feff}REF",
];

/// Numbers of channels that no heading has.
const NO_COUNTS: [&str; 12] = [
    "",
    "0",
    "9",
    "01",
    "-1",
    "+1",
    "1 ",
    "<1",
    "1.0",
    "10",
    "257",
    "18446744073709551617",
];

/// Fields that are no tag.
pub const NO_TAGS: [&str; 12] = [
    "", "toc", "Toc", "TO", "TOCX", "T0C", "TOC ", " TOC", "P", "PHX", "C\0D", "1",
];

/// Puts a fault into the fields of a heading within the rules; its word becomes one of these.
pub fn put_in_heading(random: &mut Random, heading: &mut Fields, words: &[&str]) {
    let place = 2 + random.index(heading.len() - 2);
    let tags = heading.len() - 2;
    match random.below(6) {
        0 => heading[0] = random.pick(words).into(),
        1 => heading[1] = random.pick(&NO_COUNTS).into(),
        2 => heading[1] = random.pick(&[tags - 1, tags + 1]).to_string().into_bytes(),
        3 => heading[place] = random.pick(&NO_TAGS).into(),
        4 => drop(heading.remove(place)),
        _ => heading.insert(place, random.pick(&["TOC", "PH", ""]).into()),
    }
}

/// A text whose refusal is known.
#[derive(Clone, Debug)]
pub struct Faulty {
    pub text: Vec<u8>,
    pub refusal: Refusal,
}

/// Two faults in two rows, in both orders, and both in one row where their numbers differ. Some of
/// the texts have a fault in the heading too, and some have more rows than the limit.
pub fn two_faults(random: &mut Random) -> Vec<Faulty> {
    let (m, n) = texts::size(random);
    let m = if random.once_in(100) {
        ROW_LIMIT + 1 + random.index(4)
    } else {
        m.max(3)
    };
    let mut draft = Draft::new(random, m, n);
    if random.once_in(12) {
        put_in_heading(random, &mut draft.heading, &NO_WORDS);
    }
    let faults = [row_fault(random), row_fault(random)];
    let first = first_place(random, m);
    let second = first + 1 + random.index(m - first - 1);
    let mut orders = vec![
        [(first, faults[0]), (second, faults[1])],
        [(first, faults[1]), (second, faults[0])],
    ];
    if faults[0].number() != faults[1].number() {
        orders.push([(first, faults[0]), (first, faults[1])]);
    }
    orders
        .into_iter()
        .map(|places| with_faults(random, draft.clone(), places))
        .collect()
}

/// A row that has one before it, whose label is the one repeated, and one behind it. In a text with
/// too many rows it is often near the limit.
fn first_place(random: &mut Random, m: usize) -> usize {
    if m > ROW_LIMIT && random.once_in(2) {
        m - 2 - random.index(4)
    } else {
        1 + random.index(m - 2)
    }
}

/// In one row 3 comes before 4, and 4 before 5. The fault that comes first is put in last, so that
/// the other one does not write over it.
fn with_faults(
    random: &mut Random,
    mut draft: Draft,
    mut places: [(usize, RowFault); 2],
) -> Faulty {
    places.sort_by_key(|&(row, fault)| (row, fault.number()));
    let used = draft.rows[0][0].clone();
    for (row, fault) in places.into_iter().rev() {
        put(random, &mut draft.rows[row], fault, &draft.types, &used);
    }
    let (row, fault) = places[0];
    Faulty {
        text: draft.bytes(),
        refusal: first_refusal(&draft, row, fault),
    }
}

/// The refusal of a text whose first faulty row is this one, counted from 0.
fn first_refusal(draft: &Draft, row: usize, fault: RowFault) -> Refusal {
    if draft.heading != texts::heading(&draft.types) {
        return HEADING;
    }
    let number = if row < ROW_LIMIT {
        fault.number()
    } else {
        ROW_COUNT
    };
    let line = row.min(ROW_LIMIT) as u32 + 2;
    Refusal { number, line }
}
