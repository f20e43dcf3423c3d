//! Refusals in words, with a hint from a second look at the line at fault. The look decides nothing: which
//! line is refused, and by which number, is the library's answer, and so is which field of it is no label or
//! value. A hint states what is seen there and what the form asks for.
//!
//! - `line`: a line as a whole; `number`, `value`, `label`, `fields`: its parts.
//! - `heading`, `reference`, `record`, `reading`, `settings`: the lines of each text.

#[cfg(test)]
mod damaged;
mod fields;
mod heading;
mod label;
mod line;
#[cfg(test)]
mod mistakes;
mod number;
mod reading;
mod record;
mod reference;
mod settings;
mod value;

pub use label::LIMIT as LABEL_LIMIT;

use crate::examined::{Kind, Refused};
use crate::failure;
use crate::judged::Reading;
use crate::refusals;
use crate::shown;
use crate::texts::Text;
use cundarivo::Refusal;

/// The most refused readings that are told one by one.
const TOLD: usize = 20;
/// The most bytes of a field that are shown, which keeps a hint on a line.
const FIELD: usize = 24;

/// Tells why a text is refused.
pub fn tell_refused(refused: &Refused<'_>) {
    let refusal = Refusal {
        line: refused.line,
        ..refused.refusal
    };
    tell(refused.text, refusal, &hint(refused));
}

/// Tells the first refused readings, and how many more there are. `codes` are those of the envelope.
pub fn tell_refused_readings(text: &Text, readings: &[Reading<'_>], codes: &[u8]) {
    let mut refused = (1..).zip(readings).filter_map(|(place, reading)| {
        let refusal = *reading.measured.as_ref().err()?;
        Some((place, refusal, reading.line))
    });
    for (place, refusal, line) in refused.by_ref().take(TOLD) {
        let hint = reading::hint(refusal, line, codes);
        let number = refusal.number;
        tell(
            text,
            Refusal {
                number,
                line: place,
            },
            &hint,
        );
    }
    let more = match refused.count() {
        0 => return,
        1 => "1 more reading is refused".to_string(),
        more => format!("{more} more readings are refused"),
    };
    failure::tell(&format!("{}: {more}", text.told));
}

/// Number, reason and hint of a refused reading, on one line. `line` is the reading with its byte 10 where
/// it has one, `codes` those of the envelope.
pub fn refused_reading(refusal: Refusal, line: &[u8], codes: &[u8]) -> String {
    let hint = reading::hint(refusal, line, codes);
    format!("{}; {hint}", refused(refusal.number))
}

fn refused(number: u32) -> String {
    format!("refused by {number}: {}", refusals::reason(number))
}

fn tell(text: &Text, refusal: Refusal, hint: &str) {
    let name = &text.told;
    let line = match refusal.line {
        0 => String::new(),
        line => format!(", line {line}"),
    };
    failure::tell(&format!(
        "{name}{line}: {}\n  {hint}",
        refused(refusal.number)
    ));
}

fn hint(refused: &Refused<'_>) -> String {
    let Refused {
        kind,
        text,
        refusal,
        line,
        codes,
        agrees_with_zeros,
    } = refused;
    match (refusal.number, kind) {
        (1, _) | (_, Kind::Readings) => size(*kind, text),
        (_, Kind::Reference) => reference::hint(&text.bytes, *refusal),
        (_, Kind::Record) => record::hint(&text.bytes, *refusal, codes, *agrees_with_zeros),
        (_, Kind::Settings) => settings::hint(&text.bytes, *line),
    }
}

fn size(kind: Kind, text: &Text) -> String {
    let (name, is, has) = match kind {
        Kind::Reference => ("the reference text", "is", "has"),
        Kind::Record => ("the record", "is", "has"),
        Kind::Settings => ("the settings", "are", "have"),
        Kind::Readings => ("the readings together", "are", "have"),
    };
    match text.bytes.is_empty() {
        true => format!("{name} {is} empty"),
        false => format!("{name} {has} more than 65,536 bytes"),
    }
}

/// A stranger's field, in quotes and cut short.
fn field(bytes: &[u8]) -> String {
    let shown = &bytes[..bytes.len().min(FIELD)];
    let more = if bytes.len() > FIELD { "..." } else { "" };
    format!("{}{more}", shown::quoted(shown))
}

/// A number of things, as `1 field` and `2 fields`.
fn counted(count: usize, thing: &str) -> String {
    let plural = if count == 1 { "" } else { "s" };
    format!("{count} {thing}{plural}")
}
