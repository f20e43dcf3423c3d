//! Faults of a reading, and calls with two of them in both orders, whose refusal is known.

use crate::envelopes::{self, FIGURE_FAULTS, FigureFault};
use crate::faults::{self, NO_TAGS, NO_VALUES};
use crate::random::Random;
use crate::reading_texts::{self, Line, ReadingDraft};
use crate::readings::{EnvelopeFigures, TAG_DIFFERS};
use crate::reference::{
    CHANNEL_TYPES, ChannelType, LINE_FORM, TEXT_LENGTH, TEXT_LIMIT, VALUE_RANGE,
};
use crate::rules::{OUTSIDE_LIMITS, Refusal};

/// The numbers of the refusals of a reading, in the order in which they are given.
pub const ORDER: [u32; 5] = [
    OUTSIDE_LIMITS.number,
    TEXT_LENGTH.number,
    LINE_FORM,
    TAG_DIFFERS,
    VALUE_RANGE,
];

/// A fault of a reading's line.
#[derive(Clone, Copy, Debug, PartialEq, Eq)]
pub enum LineFault {
    ValueForm,
    /// A number of many digits, but not in form.
    LongValueForm,
    FieldAdded,
    FieldDropped,
    ChannelAdded,
    ChannelDropped,
    LabelForm,
    /// Byte 13 before byte 10.
    CarriageReturn,
    EmptyLine,
    NoLineEnd,
    LineEndTwice,
    /// Byte 10 in the place of a tag, which is then two lines.
    LineEndInTag,
    LineBehind,
    BytesBehind,
    TagOfAnotherType,
    /// A field that is the tag of no type.
    NoTag,
    /// The envelope's tag in lower case.
    TagLowerCase,
    TagEmpty,
    /// The envelope's tag without its last byte, or with one more.
    TagLength,
    /// A value in the place of the tag.
    TagIsValue,
    ValueRange,
    /// A number of many digits, in form.
    LongValue,
}

pub const LINE_FAULTS: [LineFault; 22] = [
    LineFault::ValueForm,
    LineFault::LongValueForm,
    LineFault::FieldAdded,
    LineFault::FieldDropped,
    LineFault::ChannelAdded,
    LineFault::ChannelDropped,
    LineFault::LabelForm,
    LineFault::CarriageReturn,
    LineFault::EmptyLine,
    LineFault::NoLineEnd,
    LineFault::LineEndTwice,
    LineFault::LineEndInTag,
    LineFault::LineBehind,
    LineFault::BytesBehind,
    LineFault::TagOfAnotherType,
    LineFault::NoTag,
    LineFault::TagLowerCase,
    LineFault::TagEmpty,
    LineFault::TagLength,
    LineFault::TagIsValue,
    LineFault::ValueRange,
    LineFault::LongValue,
];

impl LineFault {
    /// The number of the refusal.
    pub fn number(self) -> u32 {
        match self {
            LineFault::TagOfAnotherType
            | LineFault::NoTag
            | LineFault::TagLowerCase
            | LineFault::TagEmpty
            | LineFault::TagLength
            | LineFault::TagIsValue => TAG_DIFFERS,
            LineFault::ValueRange | LineFault::LongValue => VALUE_RANGE,
            _ => LINE_FORM,
        }
    }
}

/// A fault of the line; each of the three numbers is as likely as the others.
pub fn line_fault(random: &mut Random) -> LineFault {
    let number = random.pick(&[LINE_FORM, TAG_DIFFERS, VALUE_RANGE]);
    line_fault_of(random, number)
}

fn line_fault_of(random: &mut Random, number: u32) -> LineFault {
    let faults = LINE_FAULTS.iter().copied();
    let of_number: Vec<LineFault> = faults.filter(|fault| fault.number() == number).collect();
    random.pick(&of_number)
}

/// Puts a fault into a line; one of a channel into this channel.
pub fn put(
    random: &mut Random,
    line: &mut Line,
    fault: LineFault,
    types: &[ChannelType],
    channel: usize,
) {
    match fault.number() {
        LINE_FORM => put_out_of_form(random, line, fault, types, channel),
        TAG_DIFFERS => {
            let place = line.tag_place(channel);
            line.fields[place] = another_tag(random, fault, &types[channel]);
        }
        _ => {
            let place = line.value_place(channel);
            line.fields[place] = match fault {
                LineFault::LongValue => faults::long_number(random, &["", "-", "<", "<-"]),
                _ => faults::out_of_range(random, &types[channel]).into_bytes(),
            };
        }
    }
}

fn put_out_of_form(
    random: &mut Random,
    line: &mut Line,
    fault: LineFault,
    types: &[ChannelType],
    channel: usize,
) {
    let whole = line.bytes();
    let (tag, value) = (line.tag_place(channel), line.value_place(channel));
    let fields = &mut line.fields;
    match fault {
        LineFault::ValueForm => fields[value] = random.pick(&NO_VALUES).into(),
        LineFault::LongValueForm => {
            fields[value] = faults::long_number(random, &["0", "-0", "<0", "+", "<<"]);
        }
        LineFault::FieldAdded => {
            let place = random.index(fields.len() + 1);
            fields.insert(place, random.pick(&["0", "", "A", "TOC"]).into());
        }
        LineFault::FieldDropped => drop(fields.remove(random.pick(&[tag, value]))),
        LineFault::ChannelAdded => {
            drop(fields.splice(tag..tag, [types[channel].tag.into(), b"1".to_vec()]));
        }
        LineFault::ChannelDropped => drop(fields.drain(tag..=value)),
        LineFault::LabelForm => fields[0] = faults::no_label(random),
        LineFault::CarriageReturn => fields.last_mut().expect("a field").push(b'\r'),
        LineFault::EmptyLine => *fields = vec![Vec::new()],
        LineFault::NoLineEnd => line.end.clear(),
        LineFault::LineEndTwice => line.end.push(b'\n'),
        LineFault::LineEndInTag => fields[tag].push(b'\n'),
        LineFault::LineBehind => line.end.extend(whole),
        _ => line
            .end
            .extend(random.pick(&[&b" "[..], b"0", b"\r", b"\0", b",", b"A,"])),
    }
}

/// A field that is not the tag of this type.
fn another_tag(random: &mut Random, fault: LineFault, channel: &ChannelType) -> Vec<u8> {
    let own = channel.tag;
    match fault {
        LineFault::TagOfAnotherType => {
            let others = 1 + random.index(CHANNEL_TYPES.len() - 1);
            let code = (usize::from(channel.code) - 1 + others) % CHANNEL_TYPES.len();
            CHANNEL_TYPES[code].tag.into()
        }
        LineFault::TagLowerCase => own.to_ascii_lowercase().into_bytes(),
        LineFault::TagEmpty => Vec::new(),
        LineFault::TagLength => match random.below(4) {
            0 => own[..own.len() - 1].into(),
            1 => [own.as_bytes(), &[b'C'; 40]].concat(),
            _ => format!("{own}{}", random.pick(&["C", " ", "\0", "\r", "0"])).into_bytes(),
        },
        LineFault::TagIsValue => random.pick(&["0", "1", "<1", "-5", "2001"]).into(),
        _ => random.pick(&NO_TAGS).into(),
    }
}

/// What makes a text longer than the limit, or empty.
#[derive(Clone, Copy, Debug, PartialEq, Eq)]
pub enum LengthFault {
    Empty,
    TooLong(Stretched),
}

/// The part of a line that is stretched.
#[derive(Clone, Copy, Debug, PartialEq, Eq)]
pub enum Stretched {
    Label,
    Tag,
    Value,
    End,
}

pub const STRETCHED: [Stretched; 4] = [
    Stretched::Label,
    Stretched::Tag,
    Stretched::Value,
    Stretched::End,
];

impl Stretched {
    /// The number that a text within the limit is refused by when nothing else is at fault.
    pub fn number(self) -> u32 {
        match self {
            Stretched::Label | Stretched::End => LINE_FORM,
            Stretched::Tag => TAG_DIFFERS,
            Stretched::Value => VALUE_RANGE,
        }
    }
}

/// Stretches a line to a length of its bytes; a tag or a value is that of this channel.
pub fn stretch(line: &mut Line, part: Stretched, channel: usize, length: usize) {
    let byte = match part {
        Stretched::Label => b'A',
        Stretched::Tag => b'C',
        Stretched::Value => b'7',
        Stretched::End => b'\n',
    };
    if part == Stretched::Value {
        part_of(line, part, channel).clear();
    }
    let more = length.saturating_sub(line.bytes().len());
    let bytes = part_of(line, part, channel);
    bytes.resize(bytes.len() + more, byte);
}

fn part_of(line: &mut Line, part: Stretched, channel: usize) -> &mut Vec<u8> {
    let place = match part {
        Stretched::Label => 0,
        Stretched::Tag => line.tag_place(channel),
        Stretched::Value => line.value_place(channel),
        Stretched::End => return &mut line.end,
    };
    &mut line.fields[place]
}

/// A fault of a call.
#[derive(Clone, Copy, Debug, PartialEq, Eq)]
pub enum Fault {
    Figures(FigureFault),
    Length(LengthFault),
    Line(LineFault),
}

impl Fault {
    /// The number of the refusal.
    pub fn number(self) -> u32 {
        match self {
            Fault::Figures(_) => OUTSIDE_LIMITS.number,
            Fault::Length(_) => TEXT_LENGTH.number,
            Fault::Line(fault) => fault.number(),
        }
    }

    /// The place of its number in the order of refusals.
    fn precedence(self) -> usize {
        let place = ORDER.iter().position(|&number| number == self.number());
        place.expect("every number is in the order")
    }

    pub fn refusal(self) -> Refusal {
        let number = self.number();
        let line = match self {
            Fault::Line(_) => 1,
            _ => 0,
        };
        Refusal { number, line }
    }
}

fn fault_of(random: &mut Random, number: u32) -> Fault {
    match number {
        8 => Fault::Figures(random.pick(&FIGURE_FAULTS)),
        1 if random.once_in(3) => Fault::Length(LengthFault::Empty),
        1 => Fault::Length(LengthFault::TooLong(random.pick(&STRETCHED))),
        _ => Fault::Line(line_fault_of(random, number)),
    }
}

/// A call within the rules, before faults are put into it.
#[derive(Clone, Debug)]
struct Call {
    types: Vec<ChannelType>,
    figures: EnvelopeFigures,
    line: Line,
}

impl Call {
    fn new(random: &mut Random) -> Call {
        let types = reading_texts::types(random);
        let figures = envelopes::any(random, &types);
        let line = ReadingDraft::new(random, &types).line;
        Call {
            types,
            figures,
            line,
        }
    }

    fn put(&mut self, random: &mut Random, fault: Fault, channel: usize) {
        match fault {
            Fault::Figures(fault) => envelopes::put(random, &mut self.figures, fault, channel),
            Fault::Line(fault) => put(random, &mut self.line, fault, &self.types, channel),
            Fault::Length(LengthFault::Empty) => {
                self.line = Line::of(b"");
            }
            Fault::Length(LengthFault::TooLong(part)) => {
                let length = TEXT_LIMIT + 1 + random.index(3);
                stretch(&mut self.line, part, channel, length);
            }
        }
    }
}

/// A call whose refusal is known.
#[derive(Clone, Debug)]
pub struct FaultyCall {
    pub figures: EnvelopeFigures,
    pub text: Vec<u8>,
    pub refusal: Refusal,
}

/// A call with one fault.
pub fn one_fault(random: &mut Random, fault: Fault) -> FaultyCall {
    let call = Call::new(random);
    let channel = random.index(call.types.len());
    with_faults(random, call, &mut [(channel, fault)])
}

/// A call with two faults of different numbers, and how they stand to each other.
#[derive(Clone, Debug)]
pub struct TwoFaults {
    /// The numbers, that of the lower channel first.
    pub numbers: [u32; 2],
    pub in_one_channel: bool,
    pub call: FaultyCall,
}

/// Two faults in two channels, in both orders, and both in one channel.
pub fn two_faults(random: &mut Random) -> Vec<TwoFaults> {
    let call = Call::new(random);
    let n = call.types.len();
    let first = random.index(ORDER.len());
    let second = (first + 1 + random.index(ORDER.len() - 1)) % ORDER.len();
    let faults = [ORDER[first], ORDER[second]].map(|number| fault_of(random, number));
    let [one, other] = faults;
    let low = random.index(n);
    let mut places = vec![[(low, one), (low, other)]];
    if low + 1 < n {
        let high = low + 1 + random.index(n - low - 1);
        places.push([(low, one), (high, other)]);
        places.push([(low, other), (high, one)]);
    }
    places
        .into_iter()
        .map(|mut places| TwoFaults {
            numbers: places.map(|(_, fault)| fault.number()),
            in_one_channel: places[0].0 == places[1].0,
            call: with_faults(random, call.clone(), &mut places),
        })
        .collect()
}

/// The fault that is given is put in last, so that no other writes over it.
fn with_faults(random: &mut Random, mut call: Call, places: &mut [(usize, Fault)]) -> FaultyCall {
    places.sort_by_key(|&(_, fault)| fault.precedence());
    for &(channel, fault) in places.iter().rev() {
        call.put(random, fault, channel);
    }
    FaultyCall {
        text: call.line.bytes(),
        figures: call.figures,
        refusal: places[0].1.refusal(),
    }
}

/// A text of as many bytes as the limit allows, or a few less, with one part stretched.
pub fn at_the_limit(random: &mut Random, part: Stretched) -> FaultyCall {
    let mut call = Call::new(random);
    let channel = random.index(call.types.len());
    let length = TEXT_LIMIT - random.index(3);
    stretch(&mut call.line, part, channel, length);
    FaultyCall {
        text: call.line.bytes(),
        figures: call.figures,
        refusal: Refusal {
            number: part.number(),
            line: 1,
        },
    }
}
