//! Alert settings tried on recorded readings, timed: 65,536 bytes of readings and 20 settings, k and c from
//! 1 to 12, against the envelope of 20 rows.
//!
//! - of 8: readings of one channel of each type, labels of 2 to 11 bytes. Of 1: the same of TOC alone.
//! - rich: runs of 1 to 3 Alarm and of 1 to 3 Quiet verdicts by turns, and one reading in eight turned
//!   back.
//! - calm: of 200 readings two are Alarms and one is turned back, and the others are Quiet.
//!
//! The call is timed against plain Rust by fields and in one pass written for speed, and the program
//! `alerts` against the program `judge` on the same texts.

use crate::measure::{Line, Lines};
use crate::random::Random;
use crate::readings::{given, reading};
use crate::texts::TAGS;
use crate::trial::{self, Given};
use crate::verdict::Refusal;
use cundarivo::{Figures, SETTINGS, TRIAL_BYTES, Verdict, programs};
use std::cell::RefCell;
use std::iter::repeat_n;

const ROWS: usize = 20;
const BUDGET: u32 = 10_000;
const TEXT_LIMIT: usize = 65_536;
const FILES: usize = 16;
/// The largest k and c here.
const RUNS: usize = 12;

/// What a reading comes to.
#[derive(Clone, Copy, Debug, PartialEq, Eq)]
enum Kind {
    Quiet,
    Alarm,
    TurnedBack,
}

/// The next readings of a file.
type Month = fn(&mut Random) -> Vec<Kind>;

struct Work<'a> {
    envelope: &'a Envelope,
    settings: Vec<u32>,
    settings_text: Vec<u8>,
    readings: Vec<u8>,
    /// Room for what a program prints.
    output: RefCell<Vec<u8>>,
}

/// The length or the refusal, and the output.
type Tried = (Result<usize, Refusal>, [u8; TRIAL_BYTES]);

type Try = fn(&Work<'_>) -> Tried;

pub fn measure_trials(random: &mut Random) {
    for n in [8, 1] {
        let envelope = Envelope::new(random, n);
        for (name, month) in [("rich", rich as Month), ("calm", calm)] {
            let work: Vec<Work<'_>> = (0..FILES)
                .map(|_| Work::new(random, &envelope, month))
                .collect();
            measure_month(&format!("{n} {name}"), &work);
        }
    }
}

fn measure_month(name: &str, work: &[Work<'_>]) {
    let readings = work.iter().map(Work::assert_counts).sum();
    let input = format!("{FILES} files of 65,536 bytes of readings ({name})");
    let lines = Lines::new("bytes");
    let ways: [(&str, &str, Try); 2] = [
        (
            "fields",
            "splits lines and fields and counts each setting at each verdict",
            by_fields,
        ),
        (
            "one pass",
            "goes over the bytes once and looks at the settings that a run reaches",
            in_one_pass,
        ),
    ];
    for (way, how, plain) in ways {
        let sentence = format!(
            "The proved trial of 20 alert settings against plain Rust that {how}, on {input}."
        );
        let line = Line {
            name: &format!("trial {name}, {way}"),
            sentence: &sentence,
            pieces: (readings, "reading"),
        };
        let amount = |work: &Work<'_>, (length, _): &Tried| {
            assert!(length.is_ok(), "an accepted trial");
            work.readings.len() as u64
        };
        lines.measure(&line, work, proved, plain, amount);
    }
    measure_programs(name, &input, work);
}

fn measure_programs(name: &str, input: &str, work: &[Work<'_>]) {
    let lines = Lines::of(["alerts", "judge"], "bytes");
    let sentence = format!(
        "The proved program `alerts` against the proved program `judge`, both as calls, on {input}."
    );
    let line = Line {
        name: &format!("alerts {name}"),
        sentence: &sentence,
        pieces: (FILES, "file"),
    };
    let amount = |work: &Work<'_>, printed: &bool| {
        assert!(printed, "room for the output");
        work.readings.len() as u64
    };
    lines.measure(&line, work, alerts, judge, amount);
}

fn rich(random: &mut Random) -> Vec<Kind> {
    let mut kinds = Vec::new();
    for kind in [Kind::Alarm, Kind::Quiet] {
        for kind in repeat_n(kind, 1 + random.below(3)) {
            kinds.push(kind);
            // As many as are one in eight of all.
            if random.below(7) == 0 {
                kinds.push(Kind::TurnedBack);
            }
        }
    }
    kinds
}

fn calm(random: &mut Random) -> Vec<Kind> {
    vec![match random.below(200) {
        0 => Kind::TurnedBack,
        1 | 2 => Kind::Alarm,
        _ => Kind::Quiet,
    }]
}

/// Rows from the middle halves of the ranges, values below detection among them, and their envelope.
struct Envelope {
    figures: Figures,
    reference: Vec<u8>,
    record: Vec<u8>,
}

impl Envelope {
    fn new(random: &mut Random, n: usize) -> Envelope {
        let middle = middle(n);
        let rows: Vec<i32> = (0..ROWS)
            .flat_map(|row| reading(random, row, &middle).1)
            .collect();
        let codes: Vec<u8> = (1..=n as u8).collect();
        let labels: Vec<String> = (1..=ROWS).map(|row| format!("ROW-{row}")).collect();
        let reference = cundarivo::write_reference(&rows, ROWS, n, &codes, &labels);
        let reference = reference.expect("rows within their ranges");
        let drawing = cundarivo::draw(&rows, ROWS, n, BUDGET).expect("within limits");
        Envelope {
            figures: drawing.figures(&codes),
            record: programs::draw(&reference),
            reference,
        }
    }

    fn kind(&self, text: &str) -> Kind {
        match cundarivo::judge(&self.figures, text.as_bytes()) {
            Ok(Verdict::Quiet) => Kind::Quiet,
            Ok(Verdict::Alarm { .. }) => Kind::Alarm,
            Err(_) => Kind::TurnedBack,
        }
    }

    /// A reading of this kind, drawn until it is one.
    fn reading(&self, random: &mut Random, kind: Kind) -> String {
        let (whole, middle) = (&TAGS[..self.figures.n], middle(self.figures.n));
        loop {
            let number = random.below(256);
            let channels = if kind == Kind::Quiet { &middle } else { whole };
            let (mut text, _) = reading(random, number, channels);
            if kind == Kind::TurnedBack {
                text = damaged(random, &text);
            }
            if self.kind(&text) == kind {
                return text;
            }
        }
    }
}

/// The types with the middle halves of their ranges.
fn middle(n: usize) -> Vec<(&'static str, i32, i32)> {
    let half = |&(tag, low, high): &(&'static str, i32, i32)| {
        let quarter = (high - low) / 4;
        (tag, low + quarter, high - quarter)
    };
    TAGS[..n].iter().map(half).collect()
}

/// Out of form, above the range, of another tag, or empty.
fn damaged(random: &mut Random, text: &str) -> String {
    match random.below(4) {
        0 => text.replacen("TOC,", "TOC,0", 1),
        1 => text.replacen("TOC,", "TOC,9999", 1),
        2 => text.replacen("TOC,", "TC,", 1),
        _ => "\n".to_string(),
    }
}

impl<'a> Work<'a> {
    /// A file is cut where it is long enough, so that its last piece may have no byte 10.
    fn new(random: &mut Random, envelope: &'a Envelope, month: Month) -> Work<'a> {
        let mut readings = Vec::new();
        while readings.len() < TEXT_LIMIT {
            for kind in month(random) {
                readings.extend_from_slice(envelope.reading(random, kind).as_bytes());
            }
        }
        readings.truncate(TEXT_LIMIT);
        let number = |_| 1 + random.below(RUNS) as u32;
        let settings: Vec<u32> = (0..2 * SETTINGS).map(number).collect();
        let line = |pair: &[u32]| format!("{},{}\n", pair[0], pair[1]);
        let settings_text: String = settings.chunks_exact(2).map(line).collect();
        Work {
            envelope,
            settings,
            settings_text: settings_text.into_bytes(),
            readings,
            output: RefCell::new(vec![0; programs::OUTPUT_BYTES]),
        }
    }

    /// The program prints what the call writes, and its last line counts what `judge` prints. Gives the
    /// number of readings.
    fn assert_counts(&self) -> usize {
        let Envelope {
            reference, record, ..
        } = self.envelope;
        let verdicts = programs::judge(reference, record, &self.readings);
        let verdicts = String::from_utf8(verdicts).expect("lines in ASCII");
        let count = |start| {
            verdicts
                .lines()
                .filter(|line| line.starts_with(start))
                .count()
        };
        let [readings, alarm, quiet, turned_back] = ["", "ALARM", "QUIET", "NO"].map(count);
        let trial = programs::alerts(reference, record, &self.settings_text, &self.readings);
        let last = format!("\n{readings},{alarm},{quiet},{turned_back}\n");
        assert!(trial.ends_with(last.as_bytes()), "the lines of judge");
        let (length, output) = proved(self);
        assert_eq!(output[..length.expect("an accepted trial")], trial);
        readings
    }
}

fn proved(work: &Work<'_>) -> Tried {
    let figures = &work.envelope.figures;
    let mut output = [0; TRIAL_BYTES];
    let answer = cundarivo::try_settings_into(
        figures.given(),
        &figures.codes,
        &figures.scaled_centre,
        &work.settings,
        &work.readings,
        &mut output,
    );
    match answer.number {
        0 => (Ok(answer.length), output),
        number => (Err((number, answer.line)), output),
    }
}

fn by_fields(work: &Work<'_>) -> Tried {
    plain(work, trial::by_fields)
}

fn in_one_pass(work: &Work<'_>) -> Tried {
    plain(work, trial::in_one_pass)
}

fn plain(work: &Work<'_>, way: impl Fn(&Given<'_>, &mut [u8]) -> Result<usize, Refusal>) -> Tried {
    let given = Given {
        figures: given(&work.envelope.figures),
        settings: &work.settings,
        readings: &work.readings,
    };
    let mut output = [0; TRIAL_BYTES];
    let length = way(&given, &mut output);
    (length, output)
}

/// Whether the program prints.
fn alerts(work: &Work<'_>) -> bool {
    let Envelope {
        reference, record, ..
    } = work.envelope;
    let (settings, readings) = (&work.settings_text, &work.readings);
    let mut output = work.output.borrow_mut();
    programs::alerts_into(reference, record, settings, readings, &mut output).is_ok()
}

fn judge(work: &Work<'_>) -> bool {
    let Envelope {
        reference, record, ..
    } = work.envelope;
    let mut output = work.output.borrow_mut();
    programs::judge_into(reference, record, &work.readings, &mut output).is_ok()
}
