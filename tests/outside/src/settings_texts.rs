//! Texts of alert settings within the rules, and damaged in any way.

use crate::alerts::{self, RUN_LIMIT, SETTING_LIMIT, Setting};
use crate::damage::{self, Damage, OF_ANY_TEXT};
use crate::random::Random;
use crate::reference::TEXT_LIMIT;
use crate::texts::{self, Fields};

/// Fields of which each is a number outside its limits, or the same as one within them in 8, 16, 32 or
/// 64 bits.
const NUMBERS_OUTSIDE: [&str; 16] = [
    "0",
    "100",
    "101",
    "110",
    "199",
    "255",
    "256",
    "257",
    "990",
    "999",
    "65537",
    "4294967295",
    "4294967296",
    "4294967297",
    "18446744073709551617",
    "340282366920938463463374607431768211457",
];

/// Fields that are no plain numbers.
const NO_NUMBERS: [&str; 28] = [
    "", "01", "001", "00", "010", "099", "+1", "-1", "-0", "+0", " 1", "1 ", "\t1", "1\t", "1.0",
    "1.", "1e1", "0x1", "1_0", "<1", "a", "A", "1a", ":", "/", "\0", "1\0", "\u{661}",
];

#[derive(Clone, Copy, Debug, PartialEq, Eq)]
pub enum SettingsDamage {
    /// A number outside its limits.
    NumberOutside,
    /// A field that is no number.
    NoNumber,
    FieldAdded,
    FieldDropped,
    /// Another byte in the place of the comma.
    OtherComma,
    /// A carriage return before one byte 10 or before each.
    CarriageReturn,
    EmptyLine,
    LastByteRemoved,
    /// More settings than there may be, each within its limits.
    TooManySettings,
    Emptied,
    /// A few bytes about the limit on other texts, all settings within their limits.
    AboutTheLimit,
    /// Damage that any text takes.
    Bytes(Damage),
}

const OWN: [SettingsDamage; 11] = [
    SettingsDamage::NumberOutside,
    SettingsDamage::NoNumber,
    SettingsDamage::FieldAdded,
    SettingsDamage::FieldDropped,
    SettingsDamage::OtherComma,
    SettingsDamage::CarriageReturn,
    SettingsDamage::EmptyLine,
    SettingsDamage::LastByteRemoved,
    SettingsDamage::TooManySettings,
    SettingsDamage::Emptied,
    SettingsDamage::AboutTheLimit,
];

/// Every kind.
pub fn damages() -> Vec<SettingsDamage> {
    let bytes = OF_ANY_TEXT.iter().copied().map(SettingsDamage::Bytes);
    OWN.into_iter().chain(bytes).collect()
}

/// A kind; the one that makes texts long is rare.
pub fn kind(random: &mut Random) -> SettingsDamage {
    match random.below(100) {
        0 => SettingsDamage::AboutTheLimit,
        1..40 => random.pick(&OWN[..OWN.len() - 1]),
        _ => SettingsDamage::Bytes(random.pick(OF_ANY_TEXT)),
    }
}

/// Any k or c: mostly as short as the runs of few readings.
fn number(random: &mut Random) -> u32 {
    match random.below(8) {
        0 => random.pick(&[9, 10, 11, 19, 20, RUN_LIMIT - 1, RUN_LIMIT]),
        1 => 1 + random.below(RUN_LIMIT.into()) as u32,
        _ => 1 + random.below(4) as u32,
    }
}

/// 1 to 20 settings, some of them equal.
pub fn settings(random: &mut Random) -> Vec<Setting> {
    let count = match random.below(8) {
        0 => SETTING_LIMIT,
        1 => 1 + random.index(SETTING_LIMIT),
        _ => 1 + random.index(4),
    };
    let mut list: Vec<Setting> = Vec::new();
    while list.len() < count {
        let earlier = random.index(list.len().max(1));
        let again = list.get(earlier).copied().filter(|_| random.once_in(6));
        let (k, c) = (number(random), number(random));
        list.push(again.unwrap_or(Setting { k, c }));
    }
    list
}

/// A text within the rules.
pub fn whole(random: &mut Random) -> Vec<u8> {
    alerts::print_settings(&settings(random))
}

/// Damages a text of settings. An empty one stays empty, but for those that lengthen it.
pub fn damage(random: &mut Random, text: &mut Vec<u8>, kind: SettingsDamage) {
    match kind {
        SettingsDamage::Bytes(kind) => damage::damage(random, text, kind, &[]),
        SettingsDamage::LastByteRemoved => drop(text.pop()),
        SettingsDamage::Emptied => text.clear(),
        SettingsDamage::TooManySettings => {
            let count = SETTING_LIMIT + 1 + random.index(3);
            *text = b"1,1\n".repeat(count);
        }
        SettingsDamage::AboutTheLimit => {
            *text = b"1,1\n".repeat(TEXT_LIMIT / 4 + random.index(2));
            let less = random.index(3);
            text.truncate(text.len() - less);
        }
        _ => change_line(random, text, kind),
    }
}

fn change_line(random: &mut Random, text: &mut Vec<u8>, kind: SettingsDamage) {
    let mut lines: Vec<Vec<u8>> = text
        .split_inclusive(|&byte| byte == b'\n')
        .map(<[u8]>::to_vec)
        .collect();
    let place = random.index(lines.len().max(1));
    match kind {
        SettingsDamage::EmptyLine => {
            let place = random.index(lines.len() + 1);
            lines.insert(place, b"\n".to_vec());
        }
        SettingsDamage::CarriageReturn if random.once_in(2) => {
            lines.iter_mut().for_each(put_carriage_return);
        }
        SettingsDamage::CarriageReturn => lines
            .get_mut(place)
            .into_iter()
            .for_each(put_carriage_return),
        _ => {
            let line = lines.get_mut(place);
            line.into_iter()
                .for_each(|line| change_fields(random, line, kind));
        }
    }
    *text = lines.concat();
}

fn put_carriage_return(line: &mut Vec<u8>) {
    line.insert(line.len() - 1, b'\r');
}

fn change_fields(random: &mut Random, line: &mut Vec<u8>, kind: SettingsDamage) {
    let end = line.iter().take_while(|&&byte| byte != b'\n').count();
    let mut fields: Fields = texts::fields(&line[..end]);
    let place = random.index(fields.len());
    let mut comma = b',';
    match kind {
        SettingsDamage::NumberOutside => fields[place] = random.pick(&NUMBERS_OUTSIDE).into(),
        SettingsDamage::NoNumber => fields[place] = random.pick(&NO_NUMBERS).into(),
        SettingsDamage::FieldAdded => fields.insert(place, random.pick(&["1", "", "99"]).into()),
        SettingsDamage::FieldDropped => drop(fields.remove(place)),
        _ => comma = random.pick(b";. \t:-"),
    }
    *line = [&fields.join(&comma), &line[end..]].concat();
}
