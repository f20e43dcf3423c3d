//! The lines of a settings text.

use super::line::{self, Line};
use super::{fields, number};
use cundarivo::{RUN_MOST, SETTINGS};

/// What each field of a line is.
const FIELDS: [&str; 2] = [
    "k, the Alarm verdicts running that raise an alert,",
    "c, the Quiet verdicts running that clear it,",
];

/// `place` is the line at fault, 0 where the text is empty.
pub fn hint(text: &[u8], place: u32) -> String {
    let Some(line) = Line::numbered(text, place) else {
        return format!("the settings are empty: {}", asked());
    };
    if place as usize > SETTINGS {
        return past_the_last(line);
    }
    match line::nothing(line) {
        Some(seen) => line::to_remove(text, place, seen, "each line is a setting"),
        None => setting(line),
    }
}

fn asked() -> String {
    format!("a settings text has 1 to {SETTINGS} lines k,c, each number 1 to {RUN_MOST}")
}

fn setting(line: Line<'_>) -> String {
    let parts = line.fields();
    line::saved_otherwise(line)
        .or_else(|| count(line, &parts))
        .or_else(|| limits(&parts))
        .or_else(|| line::no_end(line))
        .unwrap_or_else(asked)
}

fn count(line: Line<'_>, parts: &[&[u8]]) -> Option<String> {
    let seen = fields::count(parts, FIELDS.len(), "k and c")?;
    line::comment(line).or(Some(seen))
}

/// The first of the two numbers that is none from 1 to the most.
fn limits(parts: &[&[u8]]) -> Option<String> {
    let mut fields = FIELDS.iter().zip(parts);
    fields.find_map(|(name, text)| number::outside(name, text, 1..=i64::from(RUN_MOST)))
}

fn past_the_last(line: Line<'_>) -> String {
    let (place, asked) = (SETTINGS + 1, asked());
    match line::nothing(line) {
        Some(seen) => {
            format!("the line {seen}, where a setting past the last would stand: {asked}")
        }
        None => format!("this would be setting {place}: {asked}"),
    }
}

#[cfg(test)]
pub mod tests {
    use super::{FIELDS, asked, hint, limits};
    use crate::examined::{Kind, Reference};
    use crate::texts::Text;
    use cundarivo::programs;

    const REFERENCE: &[u8] = b"REF,1,TOC\nA,5\n";
    const RECORD: &[u8] = b"ENV,1,TOC\nC,327680\nR,0,0,0,S\nW,1,65536\n";

    fn text(bytes: &[u8]) -> Text {
        Text {
            told: "'x'".to_string(),
            bytes: bytes.to_vec(),
        }
    }

    /// The line at fault and the hint; none where the library takes the settings.
    pub fn told(settings: &[u8]) -> Option<(u32, String)> {
        let (reference, settings) = (text(REFERENCE), text(settings));
        let read = Reference::read(&reference).expect("an accepted text");
        let try_settings = |part: &[u8]| programs::alerts(REFERENCE, RECORD, part, b"\n");
        let answer = try_settings(&settings.bytes);
        let refused = read.settings(&settings, &answer, try_settings).err()?;
        assert_eq!(
            (refused.kind, &*refused.answer()),
            (Kind::Settings, "NO,14,0\n")
        );
        Some((refused.line, hint(&settings.bytes, refused.line)))
    }

    /// Each line at fault stands between two that are not.
    #[test]
    fn the_first_line_at_fault_is_told() {
        let [k, c] = FIELDS;
        for (line, hint) in [
            ("0,1", format!("{k} is '0': it is 1 to 99")),
            ("100,1", format!("{k} is '100': it is 1 to 99")),
            ("-1,1", format!("{k} is '-1': it is 1 to 99")),
            ("1,0", format!("{c} is '0': it is 1 to 99")),
            (
                "1,12345678901",
                format!("{c} is '12345678901': it is 1 to 99"),
            ),
            (
                "01,1",
                format!("{k} is '01', which has leading zeros: it is written without them"),
            ),
            (
                "1,+1",
                format!("{c} is '+1', which has a plus sign: a number above 0 has no sign"),
            ),
            (
                "1, 1",
                format!(
                    "{c} is '\\x201', which starts with a blank: there are no blanks in a line"
                ),
            ),
            ("1,", format!("{c} is '', which is empty")),
            ("k,c", format!("{k} is 'k', which is no number")),
            (
                "5",
                "the line has 1 field, and 2 are asked for, k and c".into(),
            ),
            (
                "1,1,1",
                "the line has 3 fields, and 2 are asked for, k and c".into(),
            ),
            (
                "1,1,",
                "the line ends in 1 comma too many: 2 fields are asked for, k and c".into(),
            ),
            (
                "",
                "the line is empty: remove it, each line is a setting".into(),
            ),
            (
                ",",
                "the line has only commas: remove it, each line is a setting".into(),
            ),
            (
                "# a, b, c",
                "the line starts with '#': a text has no comment lines".into(),
            ),
            (
                "1;1",
                "the line has semicolons and no comma: fields are parted by commas, and by \
                 nothing else"
                    .into(),
            ),
            (
                "1,1\r",
                "the line has a Windows line end (bytes 13 and 10): save the text with Unix line \
                 ends (byte 10 alone)"
                    .into(),
            ),
        ] {
            let settings = format!("1,1\n99,99\n{line}\n1,2\n0,0\n");
            assert_eq!(told(settings.as_bytes()), Some((3, hint)), "{line}");
        }
    }

    #[test]
    fn an_end_that_is_missing_or_one_line_too_many_is_told() {
        let lines = |count: usize| "1,1\n".repeat(count);
        let asked = asked();
        let no_end = "the line has no line end: each line ends in byte 10, the last one too";
        let last = "the last line is empty: remove it, each line is a setting";
        let past = "the line is empty, where a setting past the last would stand";
        for (settings, line, hint) in [
            (String::new(), 0, format!("the settings are empty: {asked}")),
            ("1,1".to_string(), 1, no_end.to_string()),
            (lines(1) + "1,1", 2, no_end.to_string()),
            (lines(19) + "1,1", 20, no_end.to_string()),
            (lines(1) + "\n", 2, last.to_string()),
            (lines(20) + "\n", 21, format!("{past}: {asked}")),
            (lines(21), 21, format!("this would be setting 21: {asked}")),
            (
                lines(300) + "0",
                21,
                format!("this would be setting 21: {asked}"),
            ),
        ] {
            assert_eq!(told(settings.as_bytes()), Some((line, hint)), "{settings}");
        }
        assert_eq!(
            [1, 20].map(|count| told(lines(count).as_bytes())),
            [None, None]
        );
    }

    /// A field of up to three of these bytes, in each of the two places.
    #[test]
    fn a_fault_is_what_the_library_refuses() {
        let bytes = b"0159-+ ";
        let mut taken = 0;
        for code in 0..(bytes.len() + 1).pow(3) {
            let digits = [code, code / 8, code / 64].map(|digit| digit % 8);
            let places = digits.iter().filter_map(|&digit| bytes.get(digit));
            let field: Vec<u8> = places.copied().collect();
            for fields in [[&field[..], b"7"], [b"7", &field[..]]] {
                let line = [fields[0], b",", fields[1], b"\n"].concat();
                let is_refused = told(&line).is_some();
                assert_eq!(limits(&fields).is_some(), is_refused, "{field:?}");
                taken += usize::from(!is_refused);
            }
        }
        assert!(taken > 20, "{taken}");
    }
}
