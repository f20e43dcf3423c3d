//! Reference texts written, and printed plain by the program, measured:
//!
//! - 256x8 and 20x4: labels of 2 to 11 bytes, values anywhere in their ranges; of the texts that the
//!   program reads one value in ten is below detection.
//! - largest: 256 rows of 61 bytes, the most that is written.
//!
//! Plain Rust reads as in `reader`, and writes by fields with the standard library and in one pass
//! written for speed.

use crate::measure::{Line, Lines};
use crate::random::Random;
use crate::reader::Refusal;
use crate::record::Rows;
use crate::reference::{self, Labelled, Way};
use crate::reference_fields::Fields;
use crate::reference_pass::Pass;
use crate::texts::ordinary_text;
use cundarivo::{REFERENCE_BYTES, programs};

const ROWS: usize = 256;
const CHANNELS: usize = 8;
const TEXTS: usize = 16;

/// A reference text, and what it reads as.
struct Work {
    text: Vec<u8>,
    rows: Vec<i32>,
    m: usize,
    n: usize,
    codes: Vec<u8>,
    labels: Vec<u8>,
    ends: Vec<usize>,
}

/// The length or the refusal, and the buffer.
type Written<const ROOM: usize> = (Result<usize, Refusal>, [u8; ROOM]);

type Write<const ROOM: usize> = fn(&Work) -> Written<ROOM>;

pub fn measure_references(random: &mut Random) {
    let lines = Lines::new("bytes");
    let ordinary = works(|| ordinary_text(random, ROWS, CHANNELS));
    measure_size::<{ room(ROWS) }>(&lines, "256x8", &ordinary);
    let largest = works(|| largest_written(random));
    measure_size::<{ room(ROWS) }>(&lines, "largest", &largest);
    let small = works(|| ordinary_text(random, 20, 4));
    measure_size::<{ room(20) }>(&lines, "20x4", &small);
}

/// Bytes that are enough for every text of m rows.
const fn room(m: usize) -> usize {
    38 + 61 * m
}

fn measure_size<const ROOM: usize>(lines: &Lines, size: &str, work: &[Work]) {
    let written: [Write<ROOM>; 2] = [
        |work| plain_write::<Fields<'_>, ROOM>(work),
        |work| plain_write::<Pass, ROOM>(work),
    ];
    let said = (
        "write",
        "The proved writing of a reference text against plain Rust that",
    );
    measure_ways(lines, said, (size, work), proved_write, written);
    let printed: [Write<ROOM>; 2] = [
        |work| plain_program::<Fields<'_>, ROOM>(work),
        |work| plain_program::<Pass, ROOM>(work),
    ];
    let said = (
        "plain",
        "The proved program `plain` as a call against plain Rust that reads by fields and",
    );
    measure_ways(lines, said, (size, work), proved_program, printed);
}

/// How each plain way goes about the text.
const HOW: [(&str, &str); 2] = [
    (
        "fields",
        "prints by the standard library and keeps labels in a hash set",
    ),
    (
        "one pass",
        "prints digits straight into the buffer and keeps labels as numbers",
    ),
];

fn measure_ways<const ROOM: usize>(
    lines: &Lines,
    (verb, compared): (&str, &str),
    (size, work): (&str, &[Work]),
    proved: Write<ROOM>,
    plain: [Write<ROOM>; 2],
) {
    let bytes = |_: &Work, (length, _): &Written<ROOM>| length.expect("an accepted text") as u64;
    for ((way, how), plain) in HOW.into_iter().zip(plain) {
        let (m, n) = (work[0].m, work[0].n);
        let sentence = format!("{compared} {how}, on {TEXTS} texts of {m} rows and {n} channels.");
        let line = Line {
            name: &format!("{verb} {size}, {way}"),
            sentence: &sentence,
            pieces: (TEXTS, "text"),
        };
        lines.measure(&line, work, proved, plain, bytes);
    }
}

fn works(mut text: impl FnMut() -> Vec<u8>) -> Vec<Work> {
    (0..TEXTS).map(|_| Work::new(text())).collect()
}

/// Every label has 12 bytes and every value 5.
fn largest_written(random: &mut Random) -> Vec<u8> {
    let mut text = format!("REF,{CHANNELS}") + &",ORP".repeat(CHANNELS);
    for row in 0..ROWS {
        text += &format!("\nPOINT-{:03X}{row:03X}", random.below(4_096));
        for _ in 0..CHANNELS {
            text += &format!(",-{}", 1_000 + random.below(1_001));
        }
    }
    text += "\n";
    assert_eq!(text.len(), REFERENCE_BYTES);
    text.into_bytes()
}

impl Work {
    fn new(text: Vec<u8>) -> Work {
        let (mut rows, mut codes) = (vec![0; ROWS * CHANNELS], vec![0; CHANNELS]);
        let counts = cundarivo::read_reference(&text, &mut rows, &mut codes);
        let cundarivo::Counts { m, n } = counts.expect("an accepted text");
        let (mut labels, mut ends) = (Vec::new(), Vec::new());
        for row in 1..=m {
            labels.extend_from_slice(cundarivo::label(&text, row));
            ends.push(labels.len());
        }
        rows.truncate(m * n);
        codes.truncate(n);
        Work {
            text,
            rows,
            m,
            n,
            codes,
            labels,
            ends,
        }
    }
}

fn proved_write<const ROOM: usize>(work: &Work) -> Written<ROOM> {
    let mut buffer = [0; ROOM];
    let answer = cundarivo::write_reference_into(
        &work.rows,
        work.m,
        work.n,
        &work.codes,
        &work.labels,
        &work.ends,
        &mut buffer,
    );
    match answer.number {
        0 => (Ok(answer.length), buffer),
        number => (Err((number, answer.line)), buffer),
    }
}

fn plain_write<'a, W: Way<'a>, const ROOM: usize>(work: &'a Work) -> Written<ROOM> {
    let rows = Rows {
        places: &work.rows,
        m: work.m,
        n: work.n,
        codes: &work.codes,
    };
    let labelled = Labelled {
        rows,
        labels: &work.labels,
        ends: &work.ends,
    };
    let mut buffer = [0; ROOM];
    let length = reference::write::<W>(&labelled, &mut buffer);
    (length, buffer)
}

fn proved_program<const ROOM: usize>(work: &Work) -> Written<ROOM> {
    let mut output = [0; ROOM];
    let length = programs::plain_into(&work.text, &mut output);
    let refused = |refusal: cundarivo::Refusal| (refusal.number, refusal.line);
    (length.map_err(refused), output)
}

fn plain_program<'a, W: Way<'a>, const ROOM: usize>(work: &Work) -> Written<ROOM> {
    let mut output = [0; ROOM];
    let length = reference::plain::<W>(&work.text, &mut output);
    (length, output)
}
