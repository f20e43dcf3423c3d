//! Damage done to a reading as bytes, so that one kind can follow another.

use crate::damage::{self, Damage, OF_ANY_TEXT};
use crate::random::Random;
use crate::reading_faults::{self, LINE_FAULTS, LineFault, STRETCHED};
use crate::reading_texts::Line;
use crate::reference::{ChannelType, TEXT_LIMIT};

#[derive(Clone, Copy, Debug, PartialEq, Eq)]
pub enum ReadingDamage {
    /// A fault put into the line.
    Line(LineFault),
    /// Damage that any text takes.
    Bytes(Damage),
    FieldMoved,
    FieldDoubled,
    FieldsExchanged,
    /// Two fields with one between them: two tags, or two values.
    AlikeExchanged,
    /// Two such pairs of fields: two channels, or two values with the tags behind them.
    PairsExchanged,
    /// A field and the one behind it.
    NeighboursExchanged,
    Emptied,
    /// A few bytes less than the limit, or exactly the limit.
    AtTheLimit,
    AboveTheLimit,
}

const OF_FIELDS: [ReadingDamage; 6] = [
    ReadingDamage::FieldMoved,
    ReadingDamage::FieldDoubled,
    ReadingDamage::FieldsExchanged,
    ReadingDamage::AlikeExchanged,
    ReadingDamage::PairsExchanged,
    ReadingDamage::NeighboursExchanged,
];

const OF_LENGTH: [ReadingDamage; 3] = [
    ReadingDamage::Emptied,
    ReadingDamage::AtTheLimit,
    ReadingDamage::AboveTheLimit,
];

/// Every kind.
pub fn damages() -> Vec<ReadingDamage> {
    let mut list: Vec<ReadingDamage> = LINE_FAULTS.map(ReadingDamage::Line).into();
    list.extend(OF_ANY_TEXT.iter().copied().map(ReadingDamage::Bytes));
    list.extend(OF_FIELDS);
    list.extend(OF_LENGTH);
    list
}

/// A kind; the ones that make a reading long or empty are rare.
pub fn kind(random: &mut Random) -> ReadingDamage {
    match random.below(100) {
        0..3 => random.pick(&OF_LENGTH),
        3..40 => ReadingDamage::Line(reading_faults::line_fault(random)),
        40..60 => random.pick(&OF_FIELDS),
        _ => ReadingDamage::Bytes(random.pick(OF_ANY_TEXT)),
    }
}

/// Damages a reading of channels of these types.
pub fn damage(
    random: &mut Random,
    text: &mut Vec<u8>,
    damage: ReadingDamage,
    types: &[ChannelType],
) {
    let mut line = Line::of(text);
    let channel = random.index(types.len());
    let part = random.pick(&STRETCHED);
    let less = random.index(3);
    match damage {
        ReadingDamage::Bytes(kind) => return damage::damage(random, text, kind, types),
        ReadingDamage::Line(fault) => {
            reading_faults::put(random, &mut line, fault, types, channel);
        }
        ReadingDamage::Emptied => line = Line::of(b""),
        ReadingDamage::AtTheLimit => {
            reading_faults::stretch(&mut line, part, channel, TEXT_LIMIT - less);
        }
        ReadingDamage::AboveTheLimit => {
            reading_faults::stretch(&mut line, part, channel, TEXT_LIMIT + 1 + less);
        }
        _ => change_fields(random, &mut line, damage),
    }
    *text = line.bytes();
}

fn change_fields(random: &mut Random, line: &mut Line, damage: ReadingDamage) {
    let fields = &mut line.fields;
    let count = fields.len();
    let (one, other) = (random.index(count), random.index(count));
    // The place as far behind `one` as whole channels reach, itself where there is none.
    let alike = one + 2 * random.index((count - one).div_ceil(2));
    match damage {
        ReadingDamage::FieldMoved => {
            let field = fields.remove(one);
            fields.insert(other, field);
        }
        ReadingDamage::FieldDoubled => fields.insert(other, fields[one].clone()),
        ReadingDamage::FieldsExchanged => fields.swap(one, other),
        ReadingDamage::AlikeExchanged => fields.swap(one, alike),
        ReadingDamage::PairsExchanged => {
            fields.swap(one, alike);
            if alike + 1 < count {
                fields.swap(one + 1, alike + 1);
            }
        }
        _ => {
            if one + 1 < count {
                fields.swap(one, one + 1);
            }
        }
    }
}
