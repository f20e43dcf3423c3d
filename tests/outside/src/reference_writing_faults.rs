//! Faults of what is lent to the writer of reference texts, and calls with one of them, and with two in
//! both orders on one row and on two, whose refusal is known.

use crate::random::Random;
use crate::records::TypedRows;
use crate::reference::{self, ChannelType, LABEL_LIMIT, LABEL_REPEATED, LINE_FORM, VALUE_RANGE};
use crate::reference_writing::{self, HEADING_BYTES, LabelledRows, LentLabels, ROW_BYTES};
use crate::rules::{
    BUFFER_TOO_SHORT, CHANNEL_LIMIT, COORDINATE_LIMIT, OUTSIDE_LIMITS, ROW_LIMIT, Refusal,
};
use crate::sets::Set;
use crate::texts::{self, Draft};

/// The most rows of most drafts.
const FEW_ROWS: usize = 5;

/// What a fault outside the limits is put into. Two of one part could undo each other.
#[derive(Clone, Copy, Debug, PartialEq, Eq)]
enum Part {
    Counts,
    Places,
    Codes,
    Ends,
}

/// A fault that is refused with 8.
#[derive(Clone, Copy, Debug, PartialEq, Eq, PartialOrd, Ord)]
pub enum LimitFault {
    NoChannel,
    NineChannels,
    MostChannels,
    NoRow,
    TooManyRows,
    MostRows,
    /// m and n whose product is 0 in 64 bits.
    ProductWraps,
    /// m whose product with an even n is the number of places in 64 bits.
    ProductWrapsToPlaces,
    PlaceMissing,
    NoPlaces,
    CoordinateAbove,
    CoordinateBelow,
    FurthestCoordinate,
    CodeMissing,
    NoCodes,
    UnknownCode,
    /// The last end, with its bytes or without.
    EndMissing,
    NoEnds,
    /// One end more, of no byte or of a whole label.
    EndTooMany,
    EndsFall,
    /// An end before the last that is past the bytes.
    EndBeyond,
    LastEndBeyond,
    LastEndShort,
}

pub const LIMIT_FAULTS: [LimitFault; 23] = [
    LimitFault::NoChannel,
    LimitFault::NineChannels,
    LimitFault::MostChannels,
    LimitFault::NoRow,
    LimitFault::TooManyRows,
    LimitFault::MostRows,
    LimitFault::ProductWraps,
    LimitFault::ProductWrapsToPlaces,
    LimitFault::PlaceMissing,
    LimitFault::NoPlaces,
    LimitFault::CoordinateAbove,
    LimitFault::CoordinateBelow,
    LimitFault::FurthestCoordinate,
    LimitFault::CodeMissing,
    LimitFault::NoCodes,
    LimitFault::UnknownCode,
    LimitFault::EndMissing,
    LimitFault::NoEnds,
    LimitFault::EndTooMany,
    LimitFault::EndsFall,
    LimitFault::EndBeyond,
    LimitFault::LastEndBeyond,
    LimitFault::LastEndShort,
];

impl LimitFault {
    fn part(self) -> Part {
        match self {
            LimitFault::PlaceMissing
            | LimitFault::NoPlaces
            | LimitFault::CoordinateAbove
            | LimitFault::CoordinateBelow
            | LimitFault::FurthestCoordinate => Part::Places,
            LimitFault::CodeMissing | LimitFault::NoCodes | LimitFault::UnknownCode => Part::Codes,
            LimitFault::EndMissing
            | LimitFault::NoEnds
            | LimitFault::EndTooMany
            | LimitFault::EndsFall
            | LimitFault::EndBeyond
            | LimitFault::LastEndBeyond
            | LimitFault::LastEndShort => Part::Ends,
            _ => Part::Counts,
        }
    }
}

/// What makes a label out of form: 3.
#[derive(Clone, Copy, Debug, PartialEq, Eq, PartialOrd, Ord)]
pub enum LabelFault {
    Empty,
    ThirteenBytes,
    ManyBytes,
    LineEnd,
    Zero,
    Comma,
    CarriageReturn,
    Blank,
    LowerCase,
    /// A byte next to those that labels are made of.
    NextToAllowed,
    Above127,
    /// Any byte that no label has.
    AnyOther,
    /// A whole row, and the label of another.
    RowWithin,
}

/// What puts a value outside its type's range, and leaves it within those of coordinates: 4.
#[derive(Clone, Copy, Debug, PartialEq, Eq, PartialOrd, Ord)]
pub enum ValueFault {
    JustBelow,
    JustAbove,
    /// As far as a coordinate can be.
    Furthest,
}

/// Whose label a row has besides: 5.
#[derive(Clone, Copy, Debug, PartialEq, Eq, PartialOrd, Ord)]
pub enum Repeated {
    OfFirstRow,
    OfRowBefore,
    OfAnyRow,
}

/// A buffer that is shorter than the text would be: 13.
#[derive(Clone, Copy, Debug, PartialEq, Eq, PartialOrd, Ord)]
pub enum RoomFault {
    NoPlace,
    OnePlaceFewer,
}

/// A fault of a call.
#[derive(Clone, Copy, Debug, PartialEq, Eq, PartialOrd, Ord)]
pub enum Fault {
    Limit(LimitFault),
    Label(LabelFault),
    Value(ValueFault),
    Repeated(Repeated),
    Room(RoomFault),
}

pub const LABEL_FAULTS: [LabelFault; 13] = [
    LabelFault::Empty,
    LabelFault::ThirteenBytes,
    LabelFault::ManyBytes,
    LabelFault::LineEnd,
    LabelFault::Zero,
    LabelFault::Comma,
    LabelFault::CarriageReturn,
    LabelFault::Blank,
    LabelFault::LowerCase,
    LabelFault::NextToAllowed,
    LabelFault::Above127,
    LabelFault::AnyOther,
    LabelFault::RowWithin,
];

const VALUE_FAULTS: [ValueFault; 3] = [
    ValueFault::JustBelow,
    ValueFault::JustAbove,
    ValueFault::Furthest,
];

const REPEATED: [Repeated; 3] = [
    Repeated::OfFirstRow,
    Repeated::OfRowBefore,
    Repeated::OfAnyRow,
];

const ROOM_FAULTS: [RoomFault; 2] = [RoomFault::NoPlace, RoomFault::OnePlaceFewer];

/// Every fault, in the order of their numbers' tests.
pub fn all_faults() -> Vec<Fault> {
    let mut list: Vec<Fault> = LIMIT_FAULTS.map(Fault::Limit).into();
    list.extend(LABEL_FAULTS.map(Fault::Label));
    list.extend(VALUE_FAULTS.map(Fault::Value));
    list.extend(REPEATED.map(Fault::Repeated));
    list.extend(ROOM_FAULTS.map(Fault::Room));
    list
}

impl Fault {
    /// The number of the refusal.
    pub fn number(self) -> u32 {
        match self {
            Fault::Limit(_) => OUTSIDE_LIMITS.number,
            Fault::Label(_) => LINE_FORM,
            Fault::Value(_) => VALUE_RANGE,
            Fault::Repeated(_) => LABEL_REPEATED,
            Fault::Room(_) => BUFFER_TOO_SHORT.number,
        }
    }

    /// Whether a call of so many rows can have it.
    pub fn fits(self, m: usize) -> bool {
        match self {
            Fault::Repeated(_) | Fault::Limit(LimitFault::EndsFall | LimitFault::EndBeyond) => {
                m > 1
            }
            _ => true,
        }
    }

    /// Whether it is a fault of one row.
    pub fn is_of_row(self) -> bool {
        matches!(self, Fault::Label(_) | Fault::Value(_) | Fault::Repeated(_))
    }
}

/// How two faults stand to each other.
#[derive(Clone, Copy, Debug, PartialEq, Eq, PartialOrd, Ord)]
pub enum Rows {
    One,
    /// The first fault on the earlier row.
    Two,
}

/// Every two faults that a call can have at once: each two of rows with the one or the other on the
/// earlier row, and both on one where their numbers differ.
pub fn pairs() -> Vec<([Fault; 2], Rows)> {
    let all = all_faults();
    let ordered = all
        .iter()
        .flat_map(|&one| all.iter().map(move |&other| [one, other]));
    let both = |[one, other]: [Fault; 2]| {
        let of_rows = one.is_of_row() && other.is_of_row();
        let mut list = Vec::new();
        if one < other && on_one_row(one, other) {
            list.push(([one, other], Rows::One));
        }
        if of_rows {
            list.push(([one, other], Rows::Two));
        }
        list
    };
    ordered.flat_map(both).collect()
}

/// Whether a row, or a call for faults that are not of rows, can have both.
fn on_one_row(one: Fault, other: Fault) -> bool {
    match (one, other) {
        (Fault::Limit(one), Fault::Limit(other)) => one.part() != other.part(),
        // The label of an earlier row is in form, or that row is refused.
        (Fault::Label(_), Fault::Repeated(_)) => false,
        _ => one.number() != other.number(),
    }
}

/// A table within the rules, its labels apart.
#[derive(Clone, Debug)]
pub struct TableDraft {
    pub types: Vec<ChannelType>,
    /// The values of all rows, row by row.
    pub places: Vec<i32>,
    pub labels: Vec<Vec<u8>>,
}

impl TableDraft {
    /// A draft of at least so many rows: most have few, some are full.
    pub fn any(random: &mut Random, least: usize) -> TableDraft {
        let (m, n) = if random.once_in(20) {
            texts::size(random)
        } else {
            (1 + random.index(FEW_ROWS), 1 + random.index(CHANNEL_LIMIT))
        };
        TableDraft::new(random, m.max(least), n)
    }

    pub fn new(random: &mut Random, m: usize, n: usize) -> TableDraft {
        let Draft {
            types, rows, table, ..
        } = Draft::new(random, m, n);
        let label = |row: Vec<Vec<u8>>| row.into_iter().next().expect("a label");
        TableDraft {
            types,
            places: table,
            labels: rows.into_iter().map(label).collect(),
        }
    }

    /// As it is lent to a call.
    pub fn lent(&self) -> LabelledRows {
        LabelledRows {
            rows: TypedRows {
                set: Set {
                    places: self.places.clone(),
                    m: self.labels.len(),
                    n: self.types.len(),
                },
                types: reference::codes(&self.types),
            },
            labels: LentLabels::of(&self.labels),
        }
    }

    /// Puts a fault into a row, counted from 0; a label is repeated only where there is one before it.
    fn put(&mut self, random: &mut Random, row: usize, fault: Fault) {
        match fault {
            Fault::Label(fault) => self.labels[row] = out_of_form(random, &self.labels[row], fault),
            Fault::Value(fault) => self.put_value(random, row, fault),
            Fault::Repeated(repeated) => {
                let earlier = match repeated {
                    Repeated::OfFirstRow => 0,
                    Repeated::OfRowBefore => row - 1,
                    Repeated::OfAnyRow => random.index(row),
                };
                self.labels[row] = self.labels[earlier].clone();
            }
            Fault::Limit(_) | Fault::Room(_) => {}
        }
    }

    /// A value that is 1 above its range is one of a channel whose range ends below the limit on
    /// coordinates; where no channel's does, the value is as far below as it can be.
    fn put_value(&mut self, random: &mut Random, row: usize, fault: ValueFault) {
        let n = self.types.len();
        let ends_below = |&channel: &usize| self.types[channel].high < COORDINATE_LIMIT;
        let above: Vec<usize> = (0..n).filter(ends_below).collect();
        let (channel, value) = match fault {
            ValueFault::JustAbove if !above.is_empty() => {
                let channel = random.pick(&above);
                (channel, self.types[channel].high + 1)
            }
            ValueFault::JustBelow => {
                let channel = random.index(n);
                (channel, self.types[channel].low - 1)
            }
            _ if !above.is_empty() && random.once_in(2) => (random.pick(&above), COORDINATE_LIMIT),
            _ => (random.index(n), -COORDINATE_LIMIT),
        };
        self.places[row * n + channel] = value;
    }
}

/// Bytes next to those that labels are made of.
const NEXT_TO_ALLOWED: &[u8] = b"@[/:,._`+";

/// A label that is not in form, made of one that is.
fn out_of_form(random: &mut Random, label: &[u8], fault: LabelFault) -> Vec<u8> {
    let byte = match fault {
        LabelFault::Empty => return Vec::new(),
        LabelFault::ThirteenBytes => return vec![b'A'; LABEL_LIMIT + 1],
        LabelFault::ManyBytes => return vec![b'9'; LABEL_LIMIT + 2 + random.index(300)],
        LabelFault::RowWithin => return [label, b",0\n", label].concat(),
        LabelFault::LineEnd => b'\n',
        LabelFault::Zero => 0,
        LabelFault::Comma => b',',
        LabelFault::CarriageReturn => b'\r',
        LabelFault::Blank => b' ',
        LabelFault::LowerCase => random.between(b'a'.into(), b'z'.into()) as u8,
        LabelFault::NextToAllowed => random.pick(NEXT_TO_ALLOWED),
        LabelFault::Above127 => random.between(128, 255) as u8,
        LabelFault::AnyOther => no_label_byte(random),
    };
    with_byte(random, label, byte)
}

fn no_label_byte(random: &mut Random) -> u8 {
    let bytes = 0..=u8::MAX;
    let others: Vec<u8> = bytes
        .filter(|&byte| !reference::is_label(&[byte]))
        .collect();
    random.pick(&others)
}

/// A label with a byte in the place of one of its own, or put in besides.
fn with_byte(random: &mut Random, label: &[u8], byte: u8) -> Vec<u8> {
    let mut label = label.to_vec();
    if label.len() == LABEL_LIMIT || !label.is_empty() && random.once_in(2) {
        let place = random.index(label.len());
        label[place] = byte;
    } else {
        label.insert(random.index(label.len() + 1), byte);
    }
    label
}

/// A call whose refusal is known.
#[derive(Clone, Debug)]
pub struct FaultyWriting {
    pub table: LabelledRows,
    /// The places of the lent buffer.
    pub places: usize,
    pub refusal: Refusal,
}

/// A call with one fault that fits, on any row that can have it.
pub fn one_fault(random: &mut Random, draft: &TableDraft, fault: Fault) -> FaultyWriting {
    let row = first_row(random, draft.labels.len(), fault);
    with_faults(random, draft, &[(row, fault)])
}

/// A call with two faults. It has three rows or more, so that both can stand on rows that have one
/// before them.
pub fn two_faults(
    random: &mut Random,
    draft: &TableDraft,
    faults: [Fault; 2],
    rows: Rows,
) -> FaultyWriting {
    let m = draft.labels.len();
    let [one, other] = faults;
    let places = match rows {
        Rows::One => {
            let row = first_row(random, m, one).max(first_row(random, m, other));
            [(row, one), (row, other)]
        }
        Rows::Two => {
            let first = first_row(random, m - 1, one);
            let second = first + 1 + random.index(m - first - 1);
            [(first, one), (second, other)]
        }
    };
    with_faults(random, draft, &places)
}

/// Any row of the first so many; one with a row before it where its label is to be repeated.
fn first_row(random: &mut Random, rows: usize, fault: Fault) -> usize {
    match fault {
        Fault::Repeated(_) => 1 + random.index(rows - 1),
        _ => random.index(rows),
    }
}

fn with_faults(
    random: &mut Random,
    draft: &TableDraft,
    faults: &[(usize, Fault)],
) -> FaultyWriting {
    let mut faulty = draft.clone();
    for &(row, fault) in faults {
        faulty.put(random, row, fault);
    }
    let mut table = faulty.lent();
    let limits: Vec<LimitFault> = faults.iter().filter_map(limit).collect();
    // The counts last: without rows there can be no ends to change.
    for &fault in limits.iter().rev() {
        put_outside(random, &mut table, fault);
    }
    lend_longer(random, &mut table, &limits);
    FaultyWriting {
        table,
        places: room(random, draft, faults),
        refusal: first_refusal(faults),
    }
}

/// Room for the text that the draft would give without its faults, or too little where that is one.
fn room(random: &mut Random, draft: &TableDraft, faults: &[(usize, Fault)]) -> usize {
    let is_at_fault = |fault| faults.iter().any(|&(_, own)| own == Fault::Room(fault));
    if is_at_fault(RoomFault::NoPlace) {
        0
    } else if is_at_fault(RoomFault::OnePlaceFewer) {
        let text = reference_writing::write(&draft.lent());
        text.expect("a draft within the rules").len() - 1
    } else {
        HEADING_BYTES + ROW_BYTES * draft.labels.len() + random.pick(&[0, 1, 40])
    }
}

fn limit((_, fault): &(usize, Fault)) -> Option<LimitFault> {
    match fault {
        Fault::Limit(fault) => Some(*fault),
        _ => None,
    }
}

/// 8 comes before the faults of rows, an earlier row before a later one, and 13 last.
fn first_refusal(faults: &[(usize, Fault)]) -> Refusal {
    let outside = faults.iter().any(|fault| limit(fault).is_some());
    let of_rows = faults.iter().filter(|(_, fault)| fault.is_of_row());
    let first = of_rows.map(|&(row, fault)| (row, fault.number())).min();
    match first {
        _ if outside => OUTSIDE_LIMITS,
        Some((row, number)) => Refusal {
            number,
            line: row as u32 + 2,
        },
        None => BUFFER_TOO_SHORT,
    }
}

/// Places past the rows and past the codes, which do not count, where none of these is missing.
pub fn lend_longer(random: &mut Random, table: &mut LabelledRows, limits: &[LimitFault]) {
    let is_whole = |part: Part| limits.iter().all(|fault| fault.part() != part);
    if is_whole(Part::Places) {
        for _ in 0..random.pick(&[0, 0, 1, 9]) {
            table.rows.set.places.push(random.number() as i32);
        }
    }
    if is_whole(Part::Codes) {
        for _ in 0..random.pick(&[0, 0, 1, 9]) {
            table.rows.types.push(random.number() as u8);
        }
    }
}

/// Puts a table outside the limits. The rest of it stays within them where it can.
fn put_outside(random: &mut Random, table: &mut LabelledRows, fault: LimitFault) {
    match fault.part() {
        Part::Counts => put_counts(random, table, fault),
        Part::Places => put_places(random, &mut table.rows.set.places, fault),
        Part::Codes => put_codes(random, &mut table.rows, fault),
        Part::Ends => put_ends(random, &mut table.labels, fault),
    }
}

fn put_counts(random: &mut Random, table: &mut LabelledRows, fault: LimitFault) {
    let Set { places, m, n } = &mut table.rows.set;
    match fault {
        LimitFault::NoChannel => *n = 0,
        LimitFault::NineChannels => {
            let missing = CHANNEL_LIMIT + 1 - *n;
            let row = |row: &[i32]| [row, &vec![0; missing]].concat();
            *places = places.chunks(*n).flat_map(row).collect();
            table.rows.types.resize(CHANNEL_LIMIT + 1, 1);
            *n = CHANNEL_LIMIT + 1;
        }
        LimitFault::MostChannels => *n = usize::MAX - random.index(3),
        LimitFault::NoRow => {
            *m = 0;
            if random.once_in(2) {
                table.labels = LentLabels::default();
            }
        }
        LimitFault::TooManyRows => {
            for row in *m..=ROW_LIMIT {
                table.labels.bytes.extend(format!("ROW-{row}").bytes());
                table.labels.ends.push(table.labels.bytes.len());
            }
            *m = ROW_LIMIT + 1;
            places.resize(*m * *n, 0);
        }
        LimitFault::MostRows => *m = usize::MAX - random.index(3),
        LimitFault::ProductWrapsToPlaces if n.is_multiple_of(2) => {
            *m += 1 << (usize::BITS - n.trailing_zeros());
        }
        _ => (*m, *n) = random.pick(&[(1 << 61, 8), (1 << 63, 2), (1 << 62, 4), (8, 1 << 61)]),
    }
}

fn put_places(random: &mut Random, places: &mut Vec<i32>, fault: LimitFault) {
    let above = COORDINATE_LIMIT + 1;
    let place = random.index(places.len());
    match fault {
        LimitFault::PlaceMissing => places.truncate(places.len() - 1),
        LimitFault::NoPlaces => places.clear(),
        LimitFault::CoordinateAbove => places[place] = above,
        LimitFault::CoordinateBelow => places[place] = -above,
        _ => places[place] = random.pick(&[i32::MIN, i32::MAX, 65_536, -65_536]),
    }
}

fn put_codes(random: &mut Random, rows: &mut TypedRows, fault: LimitFault) {
    match fault {
        LimitFault::CodeMissing => rows.types.truncate(rows.types.len() - 1),
        LimitFault::NoCodes => rows.types.clear(),
        _ => {
            let channel = random.index(rows.types.len());
            let any = random.between(9, 255) as u8;
            rows.types[channel] = random.pick(&[0, 9, 255, any]);
        }
    }
}

fn put_ends(random: &mut Random, labels: &mut LentLabels, fault: LimitFault) {
    let LentLabels { bytes, ends } = labels;
    let length = bytes.len();
    let last = ends.len() - 1;
    match fault {
        LimitFault::EndMissing => {
            ends.pop();
            if random.once_in(2) {
                bytes.truncate(ends.last().copied().unwrap_or(0));
            }
        }
        LimitFault::NoEnds => ends.clear(),
        LimitFault::EndTooMany => {
            if random.once_in(2) {
                bytes.extend(b"MORE");
            }
            ends.push(bytes.len());
        }
        LimitFault::EndsFall => {
            let place = random.index(last);
            if place + 1 < last && ends[place] > 0 && random.once_in(2) {
                ends[place + 1] = random.index(ends[place]);
            } else {
                ends[place] = ends[place + 1] + 1;
            }
        }
        LimitFault::EndBeyond => {
            let beyond = [length + 1, length + 40, usize::MAX, 1 << 63];
            ends[random.index(last)] = random.pick(&beyond);
        }
        LimitFault::LastEndBeyond => {
            ends[last] = random.pick(&[length + 1, length + 12, usize::MAX]);
        }
        _ => bytes.extend(random.pick(&[&b"A"[..], b"ABCDEFGHIJKL", b"\n"])),
    }
}
