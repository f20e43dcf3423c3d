//! Records written and read, measured: of 256 rows of 8 channels with a weight of 256 each, so that
//! every row has a line. Plain Rust goes by lines and fields with the numbers of the standard
//! library, and in one pass written for speed.

use crate::measure::{Line, Lines};
use crate::plain;
use crate::random::Random;
use crate::readings::given;
use crate::record::{self, Refusal, Stated};
use crate::{record_fields, record_pass};
use cundarivo::{Envelope, RECORD_BYTES};

const ROWS: usize = 256;
const CHANNELS: usize = 8;
const WEIGHT: u32 = 256;
const RECORDS: usize = 16;
const CODES: [u8; CHANNELS] = [1, 2, 3, 4, 5, 6, 7, 8];

struct Work {
    rows: Vec<i32>,
    envelope: Envelope,
    text: Vec<u8>,
}

/// The length or the refusal, and the buffer.
type Written = (Result<usize, Refusal>, [u8; RECORD_BYTES]);

/// The figures or the refusal, X and the weights.
type Read = (
    Result<plain::Figures, Refusal>,
    [i64; CHANNELS],
    [u32; ROWS],
);

type Write = fn(&Work) -> Written;

type Reader = fn(&Work) -> Read;

pub fn measure_records(random: &mut Random) {
    let lines = Lines::new("bytes");
    let work: Vec<Work> = (0..RECORDS).map(|_| Work::new(random)).collect();
    let bytes = |work: &Work, accepted: bool| {
        assert!(accepted, "an envelope that agrees with its rows");
        work.text.len() as u64
    };
    let ways = [write_by_fields as Write, write_in_one_pass];
    for ((way, how), plain) in HOW.into_iter().zip(ways) {
        let (name, sentence) = said("write", "writing", way, how);
        let amount = |work: &Work, outcome: &Written| bytes(work, outcome.0.is_ok());
        lines.measure(&line(&name, &sentence), &work, proved_write, plain, amount);
    }
    let ways = [read_by_fields as Reader, read_in_one_pass];
    for ((way, how), plain) in HOW.into_iter().zip(ways) {
        let (name, sentence) = said("read", "reading", way, how);
        let amount = |work: &Work, outcome: &Read| bytes(work, outcome.0.is_ok());
        lines.measure(&line(&name, &sentence), &work, proved_read, plain, amount);
    }
}

/// How each plain way goes about a record.
const HOW: [(&str, &str); 2] = [
    (
        "fields",
        "goes by lines and fields with the standard library's numbers",
    ),
    ("one pass", "goes over the bytes once"),
];

/// The name of a line and its sentence.
fn said(verb: &str, doing: &str, way: &str, how: &str) -> (String, String) {
    let sentence = format!(
        "The proved {doing} of a record against plain Rust that {how}, agreement with the rows tested by both, on \
         {RECORDS} records of 256 rows of 8 channels with a weight each."
    );
    (format!("{verb} record, {way}"), sentence)
}

fn line<'a>(name: &'a str, sentence: &'a str) -> Line<'a> {
    Line {
        name,
        sentence,
        pieces: (RECORDS, "record"),
    }
}

impl Work {
    fn new(random: &mut Random) -> Work {
        let rows: Vec<i32> = (0..ROWS)
            .flat_map(|_| random.row_of_readings(CHANNELS))
            .collect();
        let weights = vec![WEIGHT; ROWS];
        let checked = cundarivo::check(&rows, ROWS, CHANNELS, &weights).expect("within limits");
        let figures = checked.figures(&CODES, random.below(1_000_001) as u32);
        let envelope = Envelope { figures, weights };
        let text =
            cundarivo::write_record(&envelope, &rows, ROWS).expect("an envelope that agrees");
        Work {
            rows,
            envelope,
            text,
        }
    }
}

fn proved_write(work: &Work) -> Written {
    let figures = &work.envelope.figures;
    let mut buffer = [0; RECORD_BYTES];
    let weights = &work.envelope.weights;
    let answer = cundarivo::write_record_into(
        figures.given(),
        &figures.codes,
        &figures.scaled_centre,
        weights,
        &work.rows,
        ROWS,
        &mut buffer,
    );
    match answer.number {
        0 => (Ok(answer.length), buffer),
        number => (Err((number, answer.line)), buffer),
    }
}

fn write_by_fields(work: &Work) -> Written {
    plain_write(record_fields::print, work)
}

fn write_in_one_pass(work: &Work) -> Written {
    plain_write(record_pass::print, work)
}

fn plain_write<Text: AsRef<[u8]>>(
    print: impl Fn(&record::Envelope<'_>) -> Text,
    work: &Work,
) -> Written {
    let envelope = record::Envelope {
        figures: given(&work.envelope.figures),
        weights: &work.envelope.weights,
    };
    let mut buffer = [0; RECORD_BYTES];
    let length = record::write(print, &envelope, &work.rows, ROWS, &mut buffer);
    (length, buffer)
}

fn proved_read(work: &Work) -> Read {
    let (mut centre, mut weights) = ([0; CHANNELS], [0; ROWS]);
    let Work { rows, text, .. } = work;
    let answer = cundarivo::read_record_into(
        rows,
        ROWS,
        CHANNELS,
        &CODES,
        text,
        &mut centre,
        &mut weights,
    );
    let figures = match answer.number {
        0 => Ok(plain::Figures {
            settled: answer.settled == 1,
            moves: answer.moves,
            scaled_squared_radius: answer.scaled_squared_radius,
            scaled_lower_bound: answer.scaled_lower_bound,
        }),
        number => Err((number, answer.line)),
    };
    (figures, centre, weights)
}

fn read_by_fields(work: &Work) -> Read {
    plain_read(record_fields::parse, work)
}

fn read_in_one_pass(work: &Work) -> Read {
    plain_read(record_pass::parse, work)
}

fn plain_read(parse: impl Fn(&[u8]) -> Result<Stated, u32>, work: &Work) -> Read {
    let (mut centre, mut weights) = ([0; CHANNELS], [0; ROWS]);
    let rows = record::Rows {
        places: &work.rows,
        m: ROWS,
        n: CHANNELS,
        codes: &CODES,
    };
    let figures = record::read(parse, &rows, &work.text, &mut centre, &mut weights);
    (figures, centre, weights)
}
