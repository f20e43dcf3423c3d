//! A value under its channel's type: what keeps it from being in form, or how it lies outside its range.

use super::line::Place;
use super::number::Fault;
use super::{field, number};
use crate::types::Type;
use crate::units;

/// The number by which the library refuses a field as a value of a type, 0 where it accepts it.
pub fn refusal(channel: &Type, field: &[u8]) -> u32 {
    if field.contains(&b',') || field.contains(&b'\n') {
        return 3;
    }
    let heading = format!("REF,1,{}\nA,", channel.tag);
    let text = [heading.as_bytes(), field, b"\n"].concat();
    let (mut table, mut codes) = ([0], [0]);
    let read = cundarivo::read_reference(&text, &mut table, &mut codes);
    read.err().map_or(0, |refusal| refusal.number)
}

/// What is told of the leftmost value that the library refuses by a number, 3 or 4.
pub fn first<'f>(
    values: impl Iterator<Item = &'f &'f [u8]>,
    channels: &[&Type],
    number: u32,
) -> Option<String> {
    let mut values = values.zip(channels).enumerate();
    let at_fault =
        |(_, (text, channel)): &(usize, (&&[u8], &&Type))| refusal(channel, text) == number;
    let (index, (text, channel)) = values.find(at_fault)?;
    let subject = format!("value {} ({})", index + 1, channel.tag);
    Some(match number {
        4 => format!(
            "{}{}",
            range(&subject, channel, text),
            alike(channel, channels)
        ),
        _ => form(&subject, channel, text),
    })
}

/// That other channels are of the same type, where a value may stand under the wrong one.
fn alike(channel: &Type, channels: &[&Type]) -> String {
    let count = channels.iter().filter(|other| **other == channel).count();
    match count {
        0 | 1 => String::new(),
        _ => format!("; {count} channels are {}", channel.tag),
    }
}

/// Why a field is no value in form. `subject` names its place on the line.
fn form(subject: &str, channel: &Type, text: &[u8]) -> String {
    let below = text.starts_with(b"<");
    let number = text.strip_prefix(b"<").unwrap_or(text);
    let Some(fault) = number::fault(number).filter(|fault| *fault != Fault::Other) else {
        let steps = units::step(channel);
        let text = field(text);
        return format!(
            "{subject}, {text}, is not a whole number of steps of {steps}, nor < and one"
        );
    };
    if fault == Fault::Empty && !below {
        return format!("{subject} is empty: {}", missing(channel));
    }
    let seen = match fault {
        _ if below && number::small(number) == Some(0) => {
            let high = channel.high;
            format!("has a zero behind <, where a number from 1 to {high} stands")
        }
        Fault::Empty => format!("has nothing behind <: {}", missing(channel)),
        Fault::NoDigit => format!("is no number: {}", missing(channel)),
        Fault::Point => format!("has a decimal point: {}", in_steps(channel, below, number)),
        Fault::LeadingZeros => leading_zeros(below, number),
        Fault::Blank(blank) if below && blank.place == Place::Start => {
            format!("has {} behind <: there are no blanks in a line", blank.name)
        }
        fault => fault.words(),
    };
    format!("{subject}, {}, {seen}", field(text))
}

fn missing(channel: &Type) -> String {
    let high = channel.high;
    format!("no value may be missing, and below detection is <v, v from 1 to {high}")
}

fn leading_zeros(below: bool, number: &[u8]) -> String {
    let sign = if below { "<" } else { "" };
    match number::small(number) {
        Some(plain) => format!("has leading zeros: without them it is {sign}{plain}"),
        None => Fault::LeadingZeros.words(),
    }
}

/// What the steps of a type are and, where a decimal number is a whole number of them within the range,
/// which.
fn in_steps(channel: &Type, below: bool, number: &[u8]) -> String {
    let steps = format!(
        "values are whole numbers of steps of {}",
        units::step(channel)
    );
    let low = if below { 1 } else { i64::from(channel.low) };
    match exact(channel, number) {
        Some(count) if (low..=i64::from(channel.high)).contains(&count) => {
            let value = units::whole(channel, count);
            match below {
                true => format!("{steps}, and below {value} is <{count}"),
                false => format!("{steps}, and {value} is {count}"),
            }
        }
        _ => steps,
    }
}

/// How many steps a decimal number in the type's unit is, where they are whole and few.
pub fn exact(channel: &Type, number: &[u8]) -> Option<i64> {
    let (negative, before, behind) = number::apart(number)?;
    let zeros = behind
        .iter()
        .rev()
        .take_while(|&&byte| byte == b'0')
        .count();
    let behind = &behind[..behind.len() - zeros];
    let missing = channel.decimals.checked_sub(behind.len())?;
    let digits = [before, behind, &b"0000"[..missing]].concat();
    let count = number::small(&digits)?;
    Some(if negative { -count } else { count })
}

/// How a value in form lies outside its range.
fn range(subject: &str, channel: &Type, text: &[u8]) -> String {
    let Type { tag, low, high, .. } = channel;
    let of = |steps: i32| units::whole(channel, i64::from(steps));
    if text.starts_with(b"<") {
        return format!(
            "{subject}, {}, is outside the range: behind < stands a number from 1 to {high} ({} to {})",
            field(text),
            of(1),
            of(*high)
        );
    }
    let value = match number::small(text) {
        Some(steps) => format!(", {steps}, is {}", units::whole(channel, steps)),
        None => format!(
            " has {} digits",
            text.iter().filter(|byte| byte.is_ascii_digit()).count()
        ),
    };
    format!(
        "{subject}{value}; {tag} goes from {} to {} ({low} to {high})",
        of(*low),
        of(*high)
    )
}

#[cfg(test)]
mod tests {
    use super::{exact, first, refusal};
    use crate::types::{TYPES, of_tag};
    use crate::units;

    /// The hint on a field alone under a tag.
    fn hint(tag: &str, field: &str, number: u32) -> String {
        let channel = of_tag(tag.as_bytes()).expect("a tag");
        assert_eq!(refusal(channel, field.as_bytes()), number, "{field}");
        first([field.as_bytes()].iter(), &[channel], number).expect("a hint")
    }

    #[test]
    fn values_are_told_in_their_units() {
        let steps = "values are whole numbers of steps of";
        let told = [
            ("TMP", "22.8", format!("{steps} 0.1 °C, and 22.8 °C is 228")),
            (
                "TMP",
                "22.80",
                format!("{steps} 0.1 °C, and 22.8 °C is 228"),
            ),
            ("TMP", "22.85", format!("{steps} 0.1 °C")),
            (
                "CND",
                "1.473",
                format!("{steps} 0.001 µS/cm, and 1.473 µS/cm is 1473"),
            ),
            ("CND", "1427.0", format!("{steps} 0.001 µS/cm")),
            (
                "CND",
                "<0.005",
                format!("{steps} 0.001 µS/cm, and below 0.005 µS/cm is <5"),
            ),
            ("CND", "<0.0", format!("{steps} 0.001 µS/cm")),
            ("PH", "5.85", format!("{steps} 0.01, and 5.85 is 585")),
        ];
        for (tag, field, end) in told {
            let hint = hint(tag, field, 3);
            assert_eq!(
                hint,
                format!("value 1 ({tag}), '{field}', has a decimal point: {end}")
            );
        }
        assert!(
            hint("ORP", "-2001", 4)
                .ends_with("-2001, is -2001 mV; ORP goes from -2000 mV to 2000 mV (-2000 to 2000)")
        );
        assert!(hint("FLW", "<4001", 4).ends_with("from 1 to 4000 (0.1 l/min to 400.0 l/min)"));
    }

    /// What a hint says that a decimal number is, the library reads, and it is that many of the unit.
    #[test]
    fn steps_of_decimal_numbers_are_exact() {
        for channel in TYPES.iter().filter(|channel| channel.decimals > 0) {
            for steps in (channel.low..=channel.high).map(i64::from) {
                let whole = units::whole(channel, steps);
                let number = whole.split(' ').next().expect("a number");
                assert_eq!(exact(channel, number.as_bytes()), Some(steps), "{number}");
                assert_eq!(refusal(channel, steps.to_string().as_bytes()), 0);
            }
        }
    }
}
