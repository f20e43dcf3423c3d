//! What `plain` prints, held against the text that was read before anything is printed; and what it says of
//! the values below detection, which are plain numbers then.

use crate::examined::Reference;
use crate::failure::{self, Failure};
use crate::shown;
use crate::texts::Text;
use crate::types;

/// Stands before a value below detection, and nowhere else in an accepted text.
const BELOW: u8 = b'<';

/// Holds what is printed against an accepted text: it reads as the same table, types and labels, and every
/// value is plain. There is one such text.
pub fn require_same(reference: &Reference<'_>, printed: &[u8]) -> Result<(), Failure> {
    let text = Text {
        told: "what is printed".to_string(),
        bytes: printed.to_vec(),
    };
    let same = Reference::read(&text).is_ok_and(|read| states_same(&read, reference));
    match same && count(printed, BELOW) == 0 {
        true => Ok(()),
        false => Err(Failure::contradiction(
            "what the program prints is not the reference text of the same table and labels",
        )),
    }
}

fn states_same(one: &Reference<'_>, other: &Reference<'_>) -> bool {
    let counts = |reference: &Reference<'_>| (reference.m, reference.n);
    counts(one) == counts(other)
        && one.codes == other.codes
        && one.table == other.table
        && labels(one).eq(labels(other))
}

/// What stands before the first comma of each row's line, which in an accepted text is its label. The
/// library's own call for a label reads the whole text for each row.
fn labels<'r>(reference: &'r Reference<'_>) -> impl Iterator<Item = Option<&'r [u8]>> {
    let rows = reference.text.lines().skip(1);
    rows.map(|line| line.split(|&byte| byte == b',').next())
}

/// Says how many values of an accepted text are below detection, and where the first of them stands.
pub fn tell_below_detection(reference: &Reference<'_>) {
    if let Some(note) = note(reference) {
        failure::tell(&format!("{}: {note}", reference.text.told));
    }
}

fn note(reference: &Reference<'_>) -> Option<String> {
    let bytes = &reference.text.bytes;
    let first = bytes.iter().position(|&byte| byte == BELOW)?;
    let line = count(&bytes[..first], b'\n') + 1;
    let row = line.checked_sub(2)?;
    let (channel, field) = *reference.below_detection(row).first()?;
    let tag = types::of_code(reference.codes[channel]).tag;
    let (field, number) = (shown::quoted(field), reference.row(row)[channel]);
    let values = match count(bytes, BELOW) {
        1 => "1 value below detection is printed as a plain number,".to_string(),
        many => {
            format!("{many} values below detection are printed as plain numbers, the first")
        }
    };
    let place = channel + 1;
    Some(format!(
        "{values} on line {line}: value {place} ({tag}), {field}, as {number}"
    ))
}

fn count(bytes: &[u8], wanted: u8) -> usize {
    bytes.iter().filter(|&&byte| byte == wanted).count()
}

#[cfg(test)]
mod tests {
    use super::{note, require_same};
    use crate::examined::Reference;
    use crate::texts::Text;

    fn text(bytes: &str) -> Text {
        Text {
            told: "'x.ref'".to_string(),
            bytes: bytes.into(),
        }
    }

    fn noted(bytes: &str) -> Option<String> {
        note(&Reference::read(&text(bytes)).expect("an accepted text"))
    }

    #[test]
    fn the_first_value_below_detection_is_told() {
        assert_eq!(noted("REF,1,TOC\nA,0\n"), None);
        let one = "1 value below detection is printed as a plain number, on line";
        for (rows, place) in [
            ("A,<10,7\nB,0,0\n", "2: value 1 (TOC), '<10', as 5"),
            ("A,0,<4000\nB,0,0\n", "2: value 2 (CND), '<4000', as 2000"),
            ("A,0,0\nB,0,<1\n", "3: value 2 (CND), '<1', as 0"),
        ] {
            let told = noted(&format!("REF,2,TOC,CND\n{rows}"));
            assert_eq!(told, Some(format!("{one} {place}")));
        }
        let many = "values below detection are printed as plain numbers, the first on line";
        let told = noted("REF,3,TOC,TOC,PH\nA,1,1,1\nB,1,<2,<3\nC,<4,<5,<6\n");
        let place = "3: value 2 (TOC), '<2', as 1";
        assert_eq!(told, Some(format!("5 {many} {place}")));
    }

    /// Nothing is printed then, and the status is not that of an answer.
    #[test]
    fn another_text_is_contradicted() {
        let read = text("REF,2,TOC,CND\nA,<5,7\nB,1,2\n");
        let read = Reference::read(&read).expect("an accepted text");
        let held = |printed: &str| require_same(&read, printed.as_bytes());
        let right = "REF,2,TOC,CND\nA,2,7\nB,1,2\n";
        assert!(held(right).is_ok());
        for (from, to) in [
            ("A,2", "A,<5"),
            ("A,2", "A,5"),
            ("A,2", "A,0"),
            ("B,1", "B,<1"),
            ("B,1", "C,1"),
            ("CND", "TC"),
            ("B,1,2\n", ""),
            ("B,1,2\n", "B,1,2\nC,1,2\n"),
            ("REF,2,TOC,CND\nA,2,7\n", "REF,1,TOC\nA,2\n"),
            ("B,1,2\n", "B,1,2"),
            (right, "NO,3,2\n"),
            (right, ""),
        ] {
            let printed = right.replacen(from, to, 1);
            assert_ne!(printed, right);
            let failure = held(&printed).expect_err("a contradiction");
            let line = failure.line();
            assert!(line.contains("is not the reference text"), "{printed:?}");
        }
    }
}
