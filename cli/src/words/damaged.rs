//! Damaged lines through every hint: none panics, each is one short line of printable characters, and where
//! the library refuses a line something is seen on it.

use super::line::Line;
use super::{heading, reading, record, reference, refused_reading, settings};
use crate::types::TYPES;
use cundarivo::{Figures, Refusal};

const LINES: usize = 300_000;
const SEED: u64 = 18;
/// The most bytes of a hint.
const HINT_LIMIT: usize = 400;

const HEADING: &[u8] = b"REF,3,TOC,TMP,PH\n";
const ROW: &[u8] = b"GL-01A,57,-7,585\n";
const READING: &[u8] = b"GL-01A,TOC,57,TMP,-7,PH,585\n";
const RECORD: &[u8] =
    b"ENV,2,TOC,CND\nC,196608,262144\nR,107374182400,107374182400,2,S\nW,2,32768\n\
                        W,3,32768\n";
const SETTINGS: &[u8] = b"1,1\n3,3\n12,99\n";
const CODES: [u8; 3] = [1, 5, 6];

/// What people and other programs put into a line.
const PIECES: [&[u8]; 34] = [
    b",",
    b";",
    b"\t",
    b" ",
    b"\r",
    b"\n",
    b"\"",
    b"'",
    b"#",
    b"//",
    b".",
    b"-",
    b"+",
    b"<",
    b"0",
    b"00",
    b"9",
    b"99999999999999999999",
    b"-0",
    b"22.8",
    b"n/a",
    b"ND",
    b"toc",
    b"TEMP",
    b"REF",
    b"ENV",
    b"\0",
    b"\x1b[31m",
    b"\x7f",
    b"\xff\xfe",
    b"\xef\xbb\xbf",
    b"\xe2\x88\x92",
    b"\xc2\xa0",
    b"\xa0",
];

/// A seeded source of numbers (SplitMix64).
pub struct Random {
    pub state: u64,
}

impl Random {
    /// An index into `count` places.
    pub fn index(&mut self, count: usize) -> usize {
        self.state = self.state.wrapping_add(0x9E37_79B9_7F4A_7C15);
        let mixed = (self.state ^ (self.state >> 30)).wrapping_mul(0xBF58_476D_1CE4_E5B9);
        let mixed = (mixed ^ (mixed >> 27)).wrapping_mul(0x94D0_49BB_1331_11EB);
        ((mixed ^ (mixed >> 31)) % count as u64) as usize
    }

    /// A line, or a text, with one to four damages.
    fn damaged(&mut self, text: &[u8]) -> Vec<u8> {
        let mut text = text.to_vec();
        for _ in 0..=self.index(4) {
            self.damage(&mut text);
        }
        text
    }

    fn damage(&mut self, text: &mut Vec<u8>) {
        let start = self.index(text.len() + 1);
        let end = (start + self.index(6)).min(text.len());
        let piece = PIECES[self.index(PIECES.len())].to_vec();
        match self.index(8) {
            0 => text.truncate(start),
            1 => drop(text.drain(start..end)),
            2 => drop(text.splice(start..start, text[start..end].to_vec())),
            3 => drop(text.splice(start..end, [self.index(256) as u8])),
            4 => drop(text.splice(start..start, piece.repeat(1 + self.index(80)))),
            5 => drop(text.splice(start..end, piece)),
            _ => drop(text.splice(start..start, piece)),
        }
    }
}

fn require_short(hint: &str, line: &[u8]) {
    let printable = |letter: char| (' '..='~').contains(&letter) || "°µ".contains(letter);
    assert!(hint.chars().all(printable), "{hint:?} of {line:?}");
    assert!(
        (1..=HINT_LIMIT).contains(&hint.len()),
        "{hint:?} of {line:?}"
    );
}

/// The same hints, whatever the library says of the line.
#[test]
fn hints_are_short_lines_of_printable_characters() {
    println!("seed {SEED}");
    let mut random = Random { state: SEED };
    for _ in 0..LINES {
        let base = [HEADING, ROW, READING, RECORD, SETTINGS][random.index(5)];
        let line = random.damaged(base);
        let text = [HEADING, &line].concat();
        let (place, number) = (random.index(7) as u32, random.index(15) as u32);
        let refusal = Refusal {
            number,
            line: place,
        };
        for hint in [
            heading::form(Line::of(&line), "REF"),
            reference::hint(&text, refusal),
            reference::hint(&line, refusal),
            record::hint(&line, refusal, &CODES, random.index(2) == 0),
            reading::hint(refusal, &line, &CODES),
            settings::hint(&line, place),
            refused_reading(refusal, &line, &CODES),
        ] {
            require_short(&hint, &line);
        }
    }
}

/// The hint on a line that the library refuses never only states the form.
#[test]
fn something_is_seen_on_a_refused_line() {
    println!("seed {SEED}");
    let mut random = Random { state: SEED };
    let mut refused = [0; 14];
    for _ in 0..LINES / 3 {
        let text = match random.index(2) {
            0 => [HEADING, &random.damaged(ROW)].concat(),
            _ => [&random.damaged(HEADING), ROW].concat(),
        };
        if let Err(refusal) = read(&text) {
            refused[refusal.number as usize] += 1;
            let hint = reference::hint(&text, refusal);
            require_seen(&hint, &text);
        }
        let line = random.damaged(READING);
        if let Err(refusal) = cundarivo::judge(&figures(), &line) {
            refused[refusal.number as usize] += 1;
            // A reading of several lines is not what `judge` cuts out of readings.
            if refusal.number != 1 && !line[..line.len() - 1].contains(&b'\n') {
                require_seen(&reading::hint(refusal, &line, &CODES), &line);
            }
        }
    }
    assert!(
        [2, 3, 4, 6, 10].iter().all(|&number| refused[number] > 100),
        "{refused:?}"
    );
}

fn require_seen(hint: &str, line: &[u8]) {
    require_short(hint, line);
    let forms = [
        "a row is a label",
        "the heading is REF",
        "a reading is a label",
    ];
    assert!(
        !forms.iter().any(|form| hint.starts_with(form)),
        "{hint:?} of {line:?}"
    );
}

/// Each damaged record that the library refuses by 11.
#[test]
fn something_is_seen_on_a_refused_line_of_a_record() {
    println!("seed {SEED}");
    let mut random = Random { state: SEED };
    let mut refused = 0;
    for _ in 0..LINES / 3 {
        let text = random.damaged(RECORD);
        let read = cundarivo::read_record(&[0, 0, 6, 0, 0, 8], 3, 2, &[1, 4], &text);
        if let Err(refusal @ Refusal { number: 11, .. }) = read {
            let hint = record::hint(&text, refusal, &[1, 4], false);
            require_short(&hint, &text);
            let forms = ["line 2 is", "line 3 is", "from line 4", "the heading is"];
            assert!(
                !forms.iter().any(|form| hint.starts_with(form)),
                "{hint:?} of {text:?}"
            );
            refused += 1;
        }
    }
    assert!(refused > LINES / 6, "{refused}");
}

/// Each damaged settings text that the library refuses, at the line that it is refused with.
#[test]
fn something_is_seen_on_a_refused_line_of_settings() {
    println!("seed {SEED}");
    let mut random = Random { state: SEED };
    let [mut refused, mut accepted] = [0; 2];
    for _ in 0..LINES / 3 {
        let text = random.damaged(SETTINGS);
        let Some((line, hint)) = settings::tests::told(&text) else {
            accepted += 1;
            continue;
        };
        require_short(&hint, &text);
        let is_line = Line::numbered(&text, line).is_some();
        assert!(is_line || text.is_empty(), "line {line} of {text:?}");
        assert!(
            !hint.starts_with("a settings text has"),
            "{hint:?} of {text:?}"
        );
        refused += 1;
    }
    let least = LINES / 100;
    assert!(refused > least && accepted > least, "{refused} {accepted}");
}

fn read(text: &[u8]) -> Result<cundarivo::Counts, Refusal> {
    cundarivo::read_reference(text, &mut [0; 2_048], &mut [0; 8])
}

fn figures() -> Figures {
    Figures {
        n: 3,
        codes: CODES.to_vec(),
        scaled_centre: vec![0; 3],
        scaled_squared_radius: 0,
        scaled_lower_bound: 0,
        ending: cundarivo::Ending::Settled,
        moves: 0,
    }
}

/// A reading is held against the tags of the table of types.
#[test]
fn tags_are_those_of_the_library() {
    let of_code = |code: u8| Figures {
        n: 1,
        codes: vec![code],
        ..figures()
    };
    for known in &TYPES {
        for other in &TYPES {
            let reading = format!("A,{},{}\n", other.tag, known.high);
            let refused = cundarivo::judge(&of_code(known.code), reading.as_bytes()).err();
            let number = refused.map(|refusal| refusal.number);
            assert_eq!(number, (other != known).then_some(10), "{reading}");
        }
    }
    let refused = cundarivo::judge(&of_code(9), b"A,TOC,1\n").err();
    assert_eq!(refused.map(|refusal| refusal.number), Some(8));
}
