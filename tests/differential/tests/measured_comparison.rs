//! The product compared with the outside implementation on seeded measured readings, whole and
//! damaged, against envelopes drawn, checked and arbitrary, within the limits and just outside, with
//! lent values of any length, and on full sweeps. CUNDARIVO_SEED and CUNDARIVO_MEASURED in the
//! environment give another seed and a larger number of readings.

use differential::compare_measured::MeasuredReading;
use differential::reached::Reached;
use differential::seeded::seeded;
use outside::random::Random;
use outside::reading_calls::{self, ReadingCall};
use outside::reading_faults::ORDER;
use outside::reading_texts;
use outside::readings::Verdict;
use outside::reference::CHANNEL_TYPES;
use outside::rules::{BUFFER_TOO_SHORT, CHANNEL_LIMIT, ROW_LIMIT};
use outside::sweeps;
use outside::texts::{self, Draft};
use std::collections::BTreeSet;

const SEED: u64 = 20_261_117;
const MEASURED: u64 = 400_000;
/// Reference texts whose envelopes the product draws.
const REFERENCES: u64 = 3_000;
/// Each answer and each edge is met in at least one of so many seeded readings.
const ANSWER_SHARE: u64 = 50;
/// Each refusal with values enough and with too few is met in at least one of so many.
const ROOM_SHARE: u64 = 200;
/// Each kind of damage, each figure outside its limits, each pair of faults and each length of the
/// values is met in at least one of so many.
const KIND_SHARE: u64 = 4_000;

struct Comparison {
    random: Random,
    readings: u64,
    reached: Reached,
}

fn main() {
    seeded(SEED, "MEASURED", MEASURED, compare_all);
}

fn compare_all(random: Random, readings: u64) {
    let mut comparison = Comparison {
        random,
        readings: 0,
        reached: Reached::default(),
    };
    while comparison.readings < readings {
        for call in reading_calls::some(&mut comparison.random) {
            comparison.compare_call(call);
        }
    }
    println!("seeded measured readings: {}", comparison.readings);
    comparison.reached.print();
    comparison.require(readings);
    compare_rows(&mut comparison.random);
    compare_sweeps(&mut comparison.random);
}

impl Comparison {
    fn compare_call(&mut self, call: ReadingCall) {
        let reading = MeasuredReading::new(&call.figures, &call.text);
        let verdict = reading.outcome.as_ref().map(|measured| measured.verdict);
        let verdict = verdict.map_err(|refusal| *refusal);
        assert!(call.allows(&verdict), "{}", reading.shown());
        let n = call.figures.n.min(CHANNEL_LIMIT);
        let length = length(&mut self.random, n);
        let number = reading.compare(&mut self.random, length);
        reading.compare_wrapper();
        self.reached.count(answer_name(number, verdict.ok()));
        self.reached.count(room_name(number, length < n));
        if verdict.is_ok() && length <= n + 2 {
            self.reached.count(length_name(n, length));
        }
        for kind in call.kinds {
            self.reached.count(kind);
        }
        self.readings += 1;
    }

    /// Stops the tests where an answer, an edge, a pair of faults, a length of the values or a kind
    /// of input was not met often enough.
    fn require(&self, readings: u64) {
        for name in answers().into_iter().chain(reading_calls::often()) {
            self.reached.require(&name, readings / ANSWER_SHARE);
        }
        for number in ORDER {
            for short in [false, true] {
                let name = room_name(number, short);
                self.reached.require(&name, readings / ROOM_SHARE);
            }
        }
        for name in reading_calls::seldom().into_iter().chain(lengths()) {
            self.reached.require(&name, readings / KIND_SHARE);
        }
    }
}

/// As many values as n, or as any n, or more, or of any length up to two more than n.
fn length(random: &mut Random, n: usize) -> usize {
    let any = random.index(n + 3);
    let more = n + random.index(60);
    random.pick(&[n, CHANNEL_LIMIT, more, any, any])
}

/// The names of the answers with values enough, and of 13.
fn answers() -> Vec<String> {
    let mut names: Vec<String> = ORDER.map(|number| answer_name(number, None)).into();
    names.push(answer_name(BUFFER_TOO_SHORT.number, None));
    let verdicts = [Verdict::Quiet, Verdict::Alarm { excess: 1 }];
    names.extend(verdicts.map(|verdict| answer_name(0, Some(verdict))));
    names
}

fn answer_name(number: u32, verdict: Option<Verdict>) -> String {
    match (number, verdict) {
        (0, Some(Verdict::Quiet)) => String::from("verdict: Quiet"),
        (0, _) => String::from("verdict: Alarm"),
        _ => format!("refusal {number}"),
    }
}

fn room_name(number: u32, short: bool) -> String {
    let room = if short { "too few" } else { "enough" };
    format!("answer {number}, values: {room}")
}

fn length_name(n: usize, length: usize) -> String {
    format!("values: {length} of {n}")
}

/// The names of every length up to two more than n.
fn lengths() -> Vec<String> {
    let counts = (1..=CHANNEL_LIMIT).flat_map(|n| (0..=n + 2).map(move |length| (n, length)));
    counts.map(|(n, length)| length_name(n, length)).collect()
}

/// Every row of a reference text, measured against the envelope that the product draws from it, has
/// the values that the product reads in that text, and the largest s of the rows is M.
fn compare_rows(random: &mut Random) {
    let (mut rows, mut full) = (0, 0);
    for _ in 0..REFERENCES {
        let (m, n) = texts::size(random);
        let reference = Draft::new(random, m, n);
        let (mut table, mut codes) = ([0; ROW_LIMIT * CHANNEL_LIMIT], [0; CHANNEL_LIMIT]);
        let counts = cundarivo::read_reference(&reference.bytes(), &mut table, &mut codes);
        assert_eq!(counts, Ok(cundarivo::Counts { m, n }));
        let budget = random.pick(&[0, 1, 2, 60, 10_000]);
        let drawing = cundarivo::draw(&table, m, n, budget).expect("rows within the limits");
        let figures = drawing.figures(&codes);
        let mut farthest = 0;
        for (text, row) in reading_texts::of_rows(&reference)
            .iter()
            .zip(table.chunks(n))
        {
            let measured = cundarivo::measure(&figures, text).expect("a row of the text");
            assert_eq!(measured.verdict, cundarivo::Verdict::Quiet, "{figures:?}");
            assert_eq!(measured.values, row, "{figures:?}");
            farthest = farthest.max(measured.scaled_squared_distance);
            rows += 1;
        }
        assert_eq!(farthest, figures.scaled_squared_radius, "{figures:?}");
        full += u64::from((m, n) == (ROW_LIMIT, CHANNEL_LIMIT));
    }
    println!("reference rows measured: {rows}, texts of 256 rows and 8 channels: {full}");
    assert!(rows > 2 * REFERENCES && full > 0, "too few rows");
}

/// Readings that differ little from small ones, each against one of several balls of its types; every
/// value of every type is handed out.
fn compare_sweeps(random: &mut Random) {
    let mut swept = 0;
    let mut reached = Reached::default();
    let mut handed_out: BTreeSet<(u8, i32)> = BTreeSet::new();
    sweeps::readings(|codes, text| {
        let figures = reading_calls::swept_figures(random, codes);
        let length = random.pick(&[codes.len(), codes.len() + 1, CHANNEL_LIMIT]);
        let reading = MeasuredReading::new(&figures, text);
        let number = reading.compare(random, length);
        let measured = reading.outcome.as_ref().ok();
        reached.count(answer_name(
            number,
            measured.map(|measured| measured.verdict),
        ));
        if let Some(measured) = measured {
            handed_out.extend(codes.iter().copied().zip(measured.values.iter().copied()));
        }
        swept += 1;
    });
    println!("measured readings of sweeps: {swept}");
    reached.print();
    println!("values handed out: {}", handed_out.len());
    assert!(swept > 400_000, "the sweeps are whole");
    let every: i32 = CHANNEL_TYPES.map(|c| c.high - c.low + 1).iter().sum();
    assert_eq!(
        handed_out.len(),
        every as usize,
        "every value of every type"
    );
    for name in [
        "verdict: Quiet",
        "verdict: Alarm",
        "refusal 3",
        "refusal 4",
        "refusal 10",
    ] {
        reached.require(name, 5_000);
    }
}
