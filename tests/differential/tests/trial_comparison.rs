//! The product compared with the outside implementation on seeded trials of alert settings: readings at the
//! edge of a ball in runs of Alarms and Quiets, lines between them that are turned back, settings and figures
//! within the limits and outside, and outputs of every kind of length. CUNDARIVO_SEED and CUNDARIVO_TRIALS in
//! the environment give another seed and a larger number of trials.

use differential::compare_trial::Trial;
use differential::reached::Reached;
use differential::seeded::seeded;
use outside::alert_trials::{self, Edge, TrialCall};
use outside::alerts::{RUN_LIMIT, TRIAL_BYTES};
use outside::known_alerts;
use outside::known_readings;
use outside::random::Random;

const SEED: u64 = 20_260_220;
const TRIALS: u64 = 270_000;
/// Of so many trials, that many are accepted.
const ACCEPTED_SHARE: (u64, u64) = (27, 20);
/// Each answer and each kind of output is met in at least one of so many trials.
const ANSWER_SHARE: u64 = 80;
/// Each kind of input, each set of faults and each saying is met in at least one of so many.
const KIND_SHARE: u64 = 2_700;
/// An alert after 99 Alarms is met in at least one of so many.
const LONG_SHARE: u64 = 20_000;

/// The trials with one fault alone or several, by the refusals of these in the order of the tests. The last
/// stands for an output that is too short.
const FAULTS: [&[u32]; 15] = [
    &[8],
    &[14],
    &[1],
    &[13],
    &[8, 14],
    &[8, 1],
    &[8, 13],
    &[14, 1],
    &[14, 13],
    &[1, 13],
    &[8, 14, 1],
    &[8, 14, 13],
    &[8, 1, 13],
    &[14, 1, 13],
    &[8, 14, 1, 13],
];

struct Comparison {
    random: Random,
    trials: u64,
    accepted: u64,
    reached: Reached,
}

fn main() {
    seeded(SEED, "TRIALS", TRIALS, compare_all);
}

fn compare_all(random: Random, trials: u64) {
    let mut comparison = Comparison {
        random,
        trials: 0,
        accepted: 0,
        reached: Reached::default(),
    };
    while comparison.trials < trials {
        for call in alert_trials::some(&mut comparison.random) {
            comparison.compare(call);
        }
    }
    let Comparison {
        trials: all,
        accepted,
        ..
    } = comparison;
    println!("seeded trials: {all}, accepted before room is asked for: {accepted}");
    comparison.reached.print();
    comparison.require(trials);
    compare_every_setting(&mut comparison.random);
    compare_every_list(&mut comparison.random);
}

impl Comparison {
    fn compare(&mut self, call: TrialCall) {
        let random = &mut self.random;
        let trial = Trial::new(&call.figures, &call.settings, &call.readings);
        assert!(call.allows(&trial.outcome), "{}", trial.shown());
        let length = trial.length();
        let any = random.index(length + 1);
        let places = match random.below(12) {
            0 => 0,
            1 => length.saturating_sub(1),
            2 => any,
            3..5 => length + 1,
            5..8 => TRIAL_BYTES,
            _ => length,
        };
        // A refused trial is short of room where there is none.
        let short = places < length.max(1);
        let number = trial.compare(random, places);
        let mut faults = call.faults;
        faults.extend(short.then_some(13));
        assert_eq!(number, faults.first().copied().unwrap_or(0));
        if random.once_in(8) {
            trial.compare_wrapper();
        }
        if let Ok(output) = &trial.outcome {
            if random.once_in(8) {
                trial.compare_verdicts();
            }
            self.accepted += 1;
            sayings(output)
                .into_iter()
                .for_each(|name| self.reached.count(name));
        }
        self.reached.count(faults_name(&faults));
        for kind in call.kinds {
            self.reached.count(kind);
        }
        self.trials += 1;
    }

    /// Stops the tests where an answer, a set of faults, a saying or a kind of input was not met often
    /// enough.
    fn require(&self, trials: u64) {
        let (of, owed) = ACCEPTED_SHARE;
        assert!(self.accepted >= trials / of * owed, "{}", self.accepted);
        self.reached.require(&faults_name(&[]), trials / 2);
        for name in often() {
            self.reached.require(&name, trials / ANSWER_SHARE);
        }
        let faults = FAULTS.map(faults_name);
        for name in alert_trials::kinds().iter().chain(&faults) {
            self.reached.require(name, trials / KIND_SHARE);
        }
        for name in all_sayings() {
            self.reached.require(&name, trials / KIND_SHARE);
        }
        for c in SIZES {
            let name = saying_name("99", c, "one");
            self.reached.require(&name, trials / LONG_SHARE);
        }
    }
}

fn faults_name(faults: &[u32]) -> String {
    format!("faults: {faults:?}")
}

const SIZES: [&str; 4] = ["1", "2 to 4", "5 to 98", "99"];
const RAISED: [&str; 3] = ["none", "one", "several"];

/// What the lines of a trial say, by name.
fn sayings(output: &[u8]) -> Vec<String> {
    let text = std::str::from_utf8(output).expect("a text");
    let mut lines: Vec<Vec<u32>> = text.lines().map(numbers).collect();
    let last = lines.pop().expect("a last line");
    let mut names: Vec<String> = lines.iter().map(|line| saying(line)).collect();
    let [alarms, quiets, turned_back] = [1, 2, 3].map(|place| last[place] > 0);
    names.push(last_name(alarms, quiets, turned_back));
    names
}

fn numbers(line: &str) -> Vec<u32> {
    let numbers = line.split(',').map(str::parse);
    numbers.map(|number| number.expect("a number")).collect()
}

fn saying(line: &[u32]) -> String {
    let &[k, c, raised, _] = line else {
        panic!("four numbers, not {line:?}");
    };
    let size = |number| match number {
        1 => SIZES[0],
        2..=4 => SIZES[1],
        RUN_LIMIT => SIZES[3],
        _ => SIZES[2],
    };
    saying_name(size(k), size(c), RAISED[raised.min(2) as usize])
}

fn saying_name(k: &str, c: &str, raised: &str) -> String {
    format!("k {k}, c {c}: {raised} raised")
}

fn last_name(alarms: bool, quiets: bool, turned_back: bool) -> String {
    format!("some Alarm {alarms}, some Quiet {quiets}, some turned back {turned_back}")
}

/// What is said often: runs of small k and c, with readings of both verdicts and turned back.
fn often() -> Vec<String> {
    let small = RAISED.map(|raised| saying_name("2 to 4", "2 to 4", raised));
    let last = [true, false].map(|turned_back| last_name(true, true, turned_back));
    [&small[..], &last].concat()
}

/// That no alert is raised or one is, for k below 99; and every last line with readings turned back.
fn all_sayings() -> Vec<String> {
    let mut names = Vec::new();
    for (k, c) in SIZES.iter().flat_map(|k| SIZES.map(move |c| (k, c))) {
        let raised = if *k == "99" {
            &RAISED[..1]
        } else {
            &RAISED[..2]
        };
        names.extend(raised.iter().map(|raised| saying_name(k, c, raised)));
    }
    for alarms in [false, true] {
        for quiets in [false, true] {
            names.push(last_name(alarms, quiets, true));
        }
    }
    names
}

/// Every k and c about their limits, on readings with runs of every length up to 100.
fn compare_every_setting(random: &mut Random) {
    let runs = [1, 2, 3, 10, 50, 98, 99, 100];
    let letters: String = runs.map(|run| "A".repeat(run) + &"Q".repeat(run)).concat();
    let readings = known_alerts::readings(&letters);
    let (mut tried, mut refused) = (0, 0);
    for k in 0..=RUN_LIMIT + 1 {
        for cs in [[0, 1], [2, 3], [4, 49], [50, 51], [97, 98], [99, 100]] {
            let settings = [k, cs[0], k, cs[1]];
            let trial = Trial::new(&known_readings::record(), &settings, readings.as_bytes());
            refused += u32::from(trial.compare(random, TRIAL_BYTES) == 14);
            tried += 1;
        }
    }
    println!("every k with several c: {tried}, refused: {refused}");
    assert_eq!((tried, refused), (606, 2 * 101 + 2 * 4));
}

/// Every list of at most eight readings that are Alarm, Quiet or turned back, with every k and c up to 4.
fn compare_every_list(random: &mut Random) {
    let pairs = (1..=4).flat_map(|k| (1..=4).flat_map(move |c| [k, c]));
    let settings: Vec<u32> = pairs.collect();
    let edge = Edge::about(random, known_readings::record(), &[vec![6, 0]]);
    let lines = [&edge.alarms[0][..], &edge.quiets[0], b"\n"];
    let mut tried = 0;
    for length in 1..=8 {
        for code in 0..3_usize.pow(length) {
            let digits = (0..length).map(|place| code / 3_usize.pow(place) % 3);
            let readings: Vec<&[u8]> = digits.map(|digit| lines[digit]).collect();
            let trial = Trial::new(&edge.figures, &settings, &readings.concat());
            assert_eq!(trial.compare(random, TRIAL_BYTES), 0);
            tried += 1;
        }
    }
    println!("every list of at most eight: {tried}");
    assert_eq!(tried, (3_u32.pow(9) - 3) / 2);
}
