//! The figures of a new record beside those of the one that it replaces.

use crate::examined::{NO_TEXT, Reference};
use crate::failure::Failure;
use crate::system::FileStatus;
use crate::types::{self, Type};
use crate::units;
use cundarivo::TOTAL;

/// A line that makes the first three of a record in form a record in form.
const WEIGHT_LINE: &[u8] = b"W,1,65536\n";
const NOT_IN_FORM: u32 = 11;

/// What was there under a record's name.
pub struct Old {
    /// Its first bytes.
    pub bytes: Vec<u8>,
    /// Whether these are all.
    pub whole: bool,
    pub status: FileStatus,
}

/// Centre and squared radius, in steps, the first times D and the second times D².
struct Figures {
    centre: Vec<(&'static Type, i128)>,
    /// None where a record states one below 0.
    scaled_squared_radius: Option<u64>,
}

pub fn tell(reference: &Reference<'_>, record: &[u8], old: Option<&Old>) -> Result<String, String> {
    let new = drawn(reference, record)?.told();
    let before = match old {
        None => "no record".to_string(),
        Some(old) => tell_old(old),
    };
    Ok(format!("{new}; before: {before}"))
}

fn tell_old(old: &Old) -> String {
    match (first_lines(&old.bytes), old.whole) {
        (None, false) => "a longer file, not told".to_string(),
        (None, true) => "no record in form".to_string(),
        (Some(lines), _) => match stated(lines) {
            Some(figures) => figures.told(),
            None => "no record in form".to_string(),
        },
    }
}

/// The figures of a drawn record, which must agree with the rows.
fn drawn(reference: &Reference<'_>, record: &[u8]) -> Result<Figures, String> {
    let (m, n) = (reference.m, reference.n);
    let read = cundarivo::read_record(&reference.table, m, n, &reference.codes, record);
    let envelope = read.map_err(|refusal| {
        let line = format!("the record that was drawn is refused by {}", refusal.number);
        Failure::contradiction(&line).line().to_string()
    })?;
    let figures = envelope.figures;
    let channels = figures.codes.iter().map(|&code| types::of_code(code));
    let centre = figures.scaled_centre.iter().map(|&place| i128::from(place));
    Ok(Figures {
        centre: channels.zip(centre).collect(),
        scaled_squared_radius: Some(figures.scaled_squared_radius),
    })
}

/// The first three lines with their line ends, where there are as many.
fn first_lines(bytes: &[u8]) -> Option<&[u8]> {
    let mut ends = (0..bytes.len()).filter(|&place| bytes[place] == b'\n');
    let third = ends.nth(2)?;
    Some(&bytes[..=third])
}

/// The figures as the first three lines of a record state them, where the library finds these in form. The
/// rows that they were drawn from are gone, so that nothing more is known of them.
fn stated(lines: &[u8]) -> Option<Figures> {
    let text = [lines, WEIGHT_LINE].concat();
    let read = cundarivo::read_record(&[0], 1, 1, &[1], &text);
    if read.is_err_and(|refusal| [NO_TEXT, NOT_IN_FORM].contains(&refusal.number)) {
        return None;
    }
    let text = std::str::from_utf8(lines).ok()?;
    let mut lines = text.lines().map(|line| line.split(','));
    let tags = lines.next()?.skip(2);
    let centre = lines.next()?.skip(1);
    let centre = tags.zip(centre).map(|(tag, place)| {
        let channel = types::of_tag(tag.as_bytes())?;
        Some((channel, place.parse().ok()?))
    });
    let square = lines.next()?.nth(1)?;
    Some(Figures {
        centre: centre.collect::<Option<_>>()?,
        scaled_squared_radius: square.parse().ok(),
    })
}

impl Figures {
    fn told(&self) -> String {
        let total = i128::from(TOTAL);
        let codes: Vec<u8> = self.centre.iter().map(|(kind, _)| kind.code).collect();
        let place = |(index, (kind, place)): (usize, &(&Type, i128))| {
            let name = types::channel_name(&codes, index);
            format!("{name} {}", units::part(kind, *place, total))
        };
        let centre: Vec<String> = self.centre.iter().enumerate().map(place).collect();
        let radius = match self.scaled_squared_radius {
            Some(square) => format!("radius {}", units::radius(square)),
            None => "a squared radius below 0".to_string(),
        };
        format!("centre {}, {radius}", centre.join(", "))
    }
}

#[cfg(test)]
mod tests {
    use super::{first_lines, stated};

    #[test]
    fn three_lines_are_taken() {
        assert_eq!(first_lines(b"a\nb\nc"), None);
        assert_eq!(first_lines(b"a\nb\nc\n"), Some(&b"a\nb\nc\n"[..]));
        assert_eq!(first_lines(b"\n\n\n\n"), Some(&b"\n\n\n"[..]));
    }

    #[test]
    fn lines_in_form_are_told_whatever_their_channels_are() {
        let told = |lines: &str| stated(lines.as_bytes()).map(|figures| figures.told());
        let tags = ["TOC", "TC", "IC", "CND", "TMP", "PH", "FLW", "ORP"];
        for n in 1..=8 {
            let heading = format!("ENV,{n},{}", tags[..n].join(","));
            let lines = format!("{heading}\nC{}\nR,0,0,0,S\n", ",65536".repeat(n));
            let told = told(&lines).expect("lines in form");
            assert!(told.starts_with("centre TOC 1.0 ppb"), "{told}");
            assert_eq!(told.matches(", ").count(), n, "{told}");
        }
        for lines in [
            "ENV,1,TOC\nC,1\nR,0,0,0\n",
            "ENV,2,TOC\nC,1\nR,0,0,0,S\n",
            "ENV,1,TOC\nC,1\nR,0,0,1000001,S\n",
            "ENV,1,TOC\nC,12345678901234567890\nR,0,0,0,S\n",
            "ENV,1,TOC\nC,1\nR,0,0,0,S\r\n",
        ] {
            assert_eq!(told(lines), None, "{lines}");
        }
    }

    #[test]
    fn a_repeated_tag_has_its_channels_number() {
        let lines = b"ENV,2,TMP,TMP\nC,0,65536\nR,0,0,0,S\n";
        let told = stated(lines).expect("lines in form").told();
        let expected = "centre TMP (1) 0.00 °C, TMP (2) 0.10 °C, radius 0.0 steps";
        assert_eq!(told, expected);
    }

    /// As `show` tells it: not rounded down.
    #[test]
    fn the_radius_is_that_of_show() {
        let told = |square: &str| {
            let lines = format!("ENV,1,TOC\nC,0\nR,{square},0,0,S\n");
            stated(lines.as_bytes()).expect("lines in form").told()
        };
        for (square, radius) in [
            ("30668213977088", "radius 84.6 steps"),
            ("107374182400", "radius 5.0 steps"),
            ("9999999999999999999", "radius 48252.6 steps"),
            ("0", "radius 0.0 steps"),
            ("-1", "a squared radius below 0"),
        ] {
            assert_eq!(told(square), format!("centre TOC 0.0 ppb, {radius}"));
        }
    }
}
