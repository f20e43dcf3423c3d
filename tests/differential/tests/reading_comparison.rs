//! The product compared with the outside implementation on seeded readings, whole and damaged,
//! against envelopes drawn, checked and arbitrary, within the limits and just outside, and on full
//! sweeps. CUNDARIVO_SEED and CUNDARIVO_READINGS in the environment give another seed and a larger
//! number of readings.

use differential::compare_reading::Reading;
use differential::reached::Reached;
use differential::seeded::seeded;
use outside::envelopes;
use outside::random::Random;
use outside::reading_calls::{self, ReadingCall};
use outside::reading_faults::ORDER;
use outside::reading_texts;
use outside::readings::{EnvelopeFigures, Verdict};
use outside::rules::{CHANNEL_LIMIT, ROW_LIMIT, Refusal, TOTAL};
use outside::sweeps;
use outside::texts::{self, Draft};

const SEED: u64 = 20_260_302;
const READINGS: u64 = 1_000_000;
/// Reference texts whose envelopes the product draws and checks.
const REFERENCES: u64 = 4_000;
/// Each answer and each edge is met in at least one of so many seeded readings.
const ANSWER_SHARE: u64 = 50;
/// Each kind of damage, each figure outside its limits and each pair of faults is met in at least
/// one of so many.
const KIND_SHARE: u64 = 4_000;

struct Comparison {
    random: Random,
    readings: u64,
    reached: Reached,
}

fn main() {
    seeded(SEED, "READINGS", READINGS, compare_all);
}

fn compare_all(random: Random, readings: u64) {
    let mut comparison = Comparison {
        random,
        readings: 0,
        reached: Reached::default(),
    };
    while comparison.readings < readings {
        for call in reading_calls::some(&mut comparison.random) {
            comparison.compare(call);
        }
    }
    println!("seeded readings: {}", comparison.readings);
    comparison.reached.print();
    comparison.require(readings);
    compare_rows(&mut comparison.random);
    compare_sweeps(&mut comparison.random);
    compare_below_detection();
}

impl Comparison {
    fn compare(&mut self, call: ReadingCall) {
        let reading = Reading::new(&call.figures, &call.text);
        assert!(call.allows(&reading.outcome), "{}", reading.shown());
        reading.compare();
        if self.random.once_in(16) {
            reading.compare_wrapper();
        }
        self.reached.count(answer_name(&reading.outcome));
        if reading.outcome.is_ok() {
            for kind in texts::kinds_below_detection(&call.text) {
                self.reached.count(kind.to_string());
            }
        }
        for kind in call.kinds {
            self.reached.count(kind);
        }
        self.readings += 1;
    }

    /// Stops the tests where an answer, an edge, a pair of faults or a kind of input was not met
    /// often enough.
    fn require(&self, readings: u64) {
        for kind in texts::BELOW_DETECTION {
            self.reached.require(kind, readings / ANSWER_SHARE);
        }
        for name in answers().into_iter().chain(reading_calls::often()) {
            self.reached.require(&name, readings / ANSWER_SHARE);
        }
        for name in reading_calls::seldom() {
            self.reached.require(&name, readings / KIND_SHARE);
        }
    }
}

fn answers() -> Vec<String> {
    let mut names: Vec<String> = ORDER.map(|number| format!("refusal {number}")).into();
    names.extend(["Quiet", "Alarm"].map(|verdict| format!("verdict: {verdict}")));
    names
}

fn answer_name(outcome: &Result<Verdict, Refusal>) -> String {
    match outcome {
        Ok(Verdict::Quiet) => String::from("verdict: Quiet"),
        Ok(Verdict::Alarm { .. }) => String::from("verdict: Alarm"),
        Err(refusal) => format!("refusal {}", refusal.number),
    }
}

/// Every row of a reference text is Quiet for the envelope that the product draws from it, and for
/// that of any weights which the product's check accepts.
fn compare_rows(random: &mut Random) {
    let (mut rows, mut full) = (0, 0);
    for _ in 0..REFERENCES {
        let (m, n) = texts::size(random);
        let reference = Draft::new(random, m, n);
        full += u64::from((m, n) == (ROW_LIMIT, CHANNEL_LIMIT));
        for figures in envelopes_of(random, &reference) {
            for text in reading_texts::of_rows(&reference) {
                let verdict = cundarivo::judge(&figures, &text);
                assert_eq!(verdict, Ok(cundarivo::Verdict::Quiet), "{figures:?}");
                rows += 1;
            }
        }
    }
    println!("reference rows, all Quiet: {rows}, texts of 256 rows and 8 channels: {full}");
    assert!(rows > 2 * REFERENCES && full > 0, "too few rows");
}

/// The figures of a drawing and of a check, by the product.
fn envelopes_of(random: &mut Random, reference: &Draft) -> [cundarivo::Figures; 2] {
    let (mut table, mut types) = ([0; ROW_LIMIT * CHANNEL_LIMIT], [0; CHANNEL_LIMIT]);
    let counts = cundarivo::read_reference(&reference.bytes(), &mut table, &mut types)
        .expect("a whole reference text");
    let (m, n) = (counts.m, counts.n);
    let budget = random.pick(&[0, 1, 2, 60, 10_000]);
    let drawing = cundarivo::draw(&table, m, n, budget).expect("rows within the limits");
    let weights = envelopes::accepted_weights(random, &envelopes::set_of(reference));
    let checked = cundarivo::check(&table, m, n, &weights).expect("weights that sum to D");
    [drawing.figures(&types), checked.figures(&types, budget)]
}

/// Readings that differ little from small ones, each against one of several balls of its types.
fn compare_sweeps(random: &mut Random) {
    let mut swept = 0;
    let mut reached = Reached::default();
    sweeps::readings(|codes, text| {
        let figures = reading_calls::swept_figures(random, codes);
        let reading = Reading::new(&figures, text);
        reading.compare();
        reached.count(answer_name(&reading.outcome));
        swept += 1;
    });
    println!("readings of sweeps: {swept}");
    reached.print();
    assert!(swept > 400_000, "the sweeps are whole");
    for name in [
        "verdict: Quiet",
        "verdict: Alarm",
        "refusal 3",
        "refusal 4",
        "refusal 10",
    ] {
        reached.require(name, 5_000);
    }
}

/// Every value below detection of every type, against a ball of radius 0 at half its number.
fn compare_below_detection() {
    let mut compared = 0;
    sweeps::readings_below_detection(|channel, number, text| {
        let figures = EnvelopeFigures {
            n: 1,
            types: vec![channel.code],
            scaled_centre: vec![TOTAL as i64 * i64::from(number / 2)],
            scaled_squared_radius: 0,
            scaled_lower_bound: 0,
            settled: 1,
            moves: 0,
        };
        let reading = Reading::new(&figures, text);
        assert_eq!(reading.outcome, Ok(Verdict::Quiet), "{}", reading.shown());
        reading.compare();
        compared += 1;
    });
    println!("values below detection in readings: {compared}");
    assert_eq!(compared, sweeps::BELOW_DETECTION, "the sweep is whole");
}
