//! The verdict on readings, and readings that are measured, timed.
//!
//! - of 8: readings of one channel of each type, values anywhere in their ranges, one in ten below
//!   detection, labels of 2 to 11 bytes; judged against the envelope drawn from them, so that all
//!   are Quiet.
//! - of 1: the same of TOC alone.

use crate::measure::{Line, Lines};
use crate::random::Random;
use crate::texts::{TAGS, value};
use crate::verdict::{self, Verdict};
use cundarivo::{CHANNELS, Ending, Figures};

const READINGS: usize = 256;
const BUDGET: u32 = 10_000;

struct Work<'a> {
    figures: &'a Figures,
    text: &'a [u8],
}

/// The verdict, or the refusal's number and line.
type Outcome = Result<Verdict, verdict::Refusal>;

type Judge = fn(&Work<'_>) -> Outcome;

/// The verdict, s and the values, or the refusal's number and line.
type Handed = Result<(verdict::Measured, [i32; CHANNELS]), verdict::Refusal>;

type Measure = fn(&Work<'_>) -> Handed;

pub fn measure_readings(random: &mut Random) {
    let lines = Lines::new("bytes");
    for n in [8, 1] {
        let (figures, texts) = drawn(random, n);
        let work: Vec<Work<'_>> = texts
            .iter()
            .map(|text| Work {
                figures: &figures,
                text,
            })
            .collect();
        measure_judges(&lines, n, &work);
        measure_measures(&lines, n, &work);
    }
}

/// How each plain way goes about a reading.
const HOW: [(&str, &str); 2] = [
    ("fields", "splits the line at commas"),
    ("one pass", "goes over the bytes once"),
];

fn channels(n: usize) -> String {
    format!("{n} channel{}", if n == 1 { "" } else { "s" })
}

fn measure_judges(lines: &Lines, n: usize, work: &[Work<'_>]) {
    for ((way, how), plain) in HOW.into_iter().zip([by_fields as Judge, in_one_pass]) {
        let sentence = format!(
            "The proved verdict on a reading against plain Rust that {how}, on {READINGS} readings of {}, \
             all Quiet.",
            channels(n)
        );
        let line = Line {
            name: &format!("judge {n}, {way}"),
            sentence: &sentence,
            pieces: (READINGS, "reading"),
        };
        lines.measure(&line, work, proved, plain, quiet_bytes);
    }
}

fn measure_measures(lines: &Lines, n: usize, work: &[Work<'_>]) {
    let ways = [measured_by_fields as Measure, measured_in_one_pass];
    for ((way, how), plain) in HOW.into_iter().zip(ways) {
        let sentence = format!(
            "The proved verdict with s and the values handed out against plain Rust that {how}, on {READINGS} readings \
             of {}, all Quiet.",
            channels(n)
        );
        let line = Line {
            name: &format!("measure {n}, {way}"),
            sentence: &sentence,
            pieces: (READINGS, "reading"),
        };
        lines.measure(&line, work, proved_measure, plain, measured_bytes);
    }
}

fn quiet_bytes(work: &Work<'_>, outcome: &Outcome) -> u64 {
    assert_eq!(outcome, &Ok(Verdict::Quiet), "a row of the envelope");
    work.text.len() as u64
}

fn measured_bytes(work: &Work<'_>, handed: &Handed) -> u64 {
    let ((verdict, _), _) = handed.as_ref().expect("a row of the envelope");
    quiet_bytes(work, &Ok(*verdict))
}

/// Readings of n channels, and the figures of the envelope drawn from them.
fn drawn(random: &mut Random, n: usize) -> (Figures, Vec<Vec<u8>>) {
    let mut rows = Vec::with_capacity(READINGS * n);
    let mut texts = Vec::with_capacity(READINGS);
    for row in 0..READINGS {
        let (text, values) = reading(random, row, &TAGS[..n]);
        texts.push(text.into_bytes());
        rows.extend(values);
    }
    let drawing = cundarivo::draw(&rows, READINGS, n, BUDGET).expect("within limits");
    let codes: Vec<u8> = (1..=n as u8).collect();
    (drawing.figures(&codes), texts)
}

/// A reading with values anywhere in these ranges, its number in the label, and what its values read as.
pub fn reading(
    random: &mut Random,
    number: usize,
    channels: &[(&str, i32, i32)],
) -> (String, Vec<i32>) {
    let more = "ABCDEFGHI".get(..random.below(10)).unwrap_or_default();
    let mut text = format!("{number:02X}{more}");
    let mut values = Vec::with_capacity(channels.len());
    for channel in channels {
        let (field, reads) = value(random, *channel);
        text += &format!(",{},{field}", channel.0);
        values.push(reads);
    }
    (text + "\n", values)
}

fn proved(work: &Work<'_>) -> Outcome {
    match cundarivo::judge(work.figures, work.text) {
        Ok(cundarivo::Verdict::Quiet) => Ok(Verdict::Quiet),
        Ok(cundarivo::Verdict::Alarm { excess }) => Ok(Verdict::Alarm(excess)),
        Err(refusal) => Err((refusal.number, refusal.line)),
    }
}

fn by_fields(work: &Work<'_>) -> Outcome {
    verdict::judge(&given(work.figures), work.text)
}

fn in_one_pass(work: &Work<'_>) -> Outcome {
    verdict::judge_in_one_pass(&given(work.figures), work.text)
}

/// The library's own call, which is lent the places as the plain ones are.
fn proved_measure(work: &Work<'_>) -> Handed {
    let Work { figures, text } = work;
    let (codes, centre) = (&figures.codes, &figures.scaled_centre);
    let mut values = [0; CHANNELS];
    let answer = cundarivo::measure_into(figures.given(), codes, centre, text, &mut values);
    match (answer.number, answer.verdict) {
        (0, 1) => Ok(((Verdict::Quiet, answer.scaled_squared_distance), values)),
        (0, _) => {
            let verdict = Verdict::Alarm(answer.excess);
            Ok(((verdict, answer.scaled_squared_distance), values))
        }
        (number, _) => Err((number, answer.line)),
    }
}

fn measured_by_fields(work: &Work<'_>) -> Handed {
    let mut values = [0; CHANNELS];
    let measured = verdict::measure(&given(work.figures), work.text, &mut values)?;
    Ok((measured, values))
}

fn measured_in_one_pass(work: &Work<'_>) -> Handed {
    let mut values = [0; CHANNELS];
    let measured = verdict::measure_in_one_pass(&given(work.figures), work.text, &mut values)?;
    Ok((measured, values))
}

/// The figures as plain Rust takes them.
pub fn given(figures: &Figures) -> verdict::Figures<'_> {
    verdict::Figures {
        n: figures.n,
        codes: &figures.codes,
        scaled_centre: &figures.scaled_centre,
        scaled_squared_radius: figures.scaled_squared_radius,
        scaled_lower_bound: figures.scaled_lower_bound,
        settled: u32::from(figures.ending == Ending::Settled),
        moves: figures.moves,
    }
}
