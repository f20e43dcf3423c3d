//! The programs of the product in a chain: a reference text is drawn, readings about its ball are judged, and
//! alert settings are tried on them. What is printed of a trial is held against the verdicts that `judge` has
//! printed. Then texts of settings, whole and damaged. CUNDARIVO_SEED and CUNDARIVO_TRIAL_CHAINS in the environment
//! give another seed and a larger number of chains.

use cundarivo::programs;
use differential::compare_program::Run;
use differential::reached::Reached;
use differential::seeded::seeded;
use outside::alert_trials::Edge;
use outside::alerts::{self, Said, Setting};
use outside::envelopes;
use outside::known_alerts;
use outside::known_programs::REFERENCE;
use outside::known_records::RECORD;
use outside::program_inputs;
use outside::programs::Program;
use outside::random::Random;
use outside::records::{self, TypedRows};
use outside::reference;
use outside::settings_texts;
use outside::sweeps;
use outside::texts::Draft;

const SEED: u64 = 20_260_221;
const CHAINS: u64 = 10_000;
/// Texts of settings for each chain.
const TEXTS_PER_CHAIN: u64 = 5;
/// Each outcome is met in at least one of so many chains or texts.
const SHARE: u64 = 10;
const DAMAGE_SHARE: u64 = 1_000;
const LEAST_SWEPT: u64 = 30_000;

fn main() {
    seeded(SEED, "TRIAL_CHAINS", CHAINS, compare_all);
}

fn compare_all(mut random: Random, chains: u64) {
    compare_chains(&mut random, chains);
    compare_settings(&mut random, chains * TEXTS_PER_CHAIN);
    compare_sweeps(&mut random);
}

fn compare_chains(random: &mut Random, chains: u64) {
    let mut reached = Reached::default();
    let mut met = 0;
    while met < chains {
        let reference = program_inputs::reference(random);
        let Some(chain) = Chain::new(random, &reference) else {
            reached.count(String::from("ball: no reading outside it"));
            continue;
        };
        chain.counted();
        chain.one_by_one();
        chain.without_those_turned_back();
        chain.refused(random);
        for (name, met) in chain.outcomes() {
            reached.count(format!("{name}: {met}"));
        }
        met += 1;
    }
    println!("chains: {chains}");
    reached.print();
    for name in ["raised", "passed more than raised", "turned back"] {
        for met in [false, true] {
            reached.require(&format!("{name}: {met}"), chains / SHARE);
        }
    }
}

/// A reference text, the record that the product draws of it, readings about its ball and the verdicts that
/// the product prints of them, and settings with the trial that it prints.
struct Chain {
    text: Vec<u8>,
    record: Vec<u8>,
    settings: Vec<Setting>,
    readings: Vec<u8>,
    /// As `judge` prints it of each reading.
    said: Vec<Said>,
    trial: Vec<u8>,
}

impl Chain {
    /// Nothing where all readings about the ball have one verdict, as in a ball that reaches over the whole
    /// ranges.
    fn new(random: &mut Random, reference: &Draft) -> Option<Chain> {
        let text = reference.bytes();
        let record = programs::draw(&text);
        let edge = edge(random, reference, &record);
        if edge.alarms.is_empty() || edge.quiets.is_empty() {
            return None;
        }
        let (count, turned_back) = (1 + random.index(40), random.pick(&[0, 3, 8]));
        let mut readings = edge.in_runs(random, count, turned_back);
        if random.once_in(4) {
            readings.pop();
        }
        let settings = settings_texts::settings(random);
        let trial = programs::alerts(
            &text,
            &record,
            &alerts::print_settings(&settings),
            &readings,
        );
        let said = said_by_judge(&programs::judge(&text, &record, &readings));
        Some(Chain {
            text,
            record,
            settings,
            readings,
            said,
            trial,
        })
    }

    fn tried(&self, settings: &[Setting], readings: &[u8]) -> Vec<u8> {
        let settings = alerts::print_settings(settings);
        programs::alerts(&self.text, &self.record, &settings, readings)
    }

    /// The trial is that of the verdicts which `judge` prints, and its last line counts these.
    fn counted(&self) {
        let owed = alerts::print(&self.said, &self.settings);
        assert_eq!(self.trial, owed, "{}", self.shown());
        let count = |own| self.said.iter().filter(|&&said| said == own).count();
        let [alarms, quiets] = [Said::Alarm, Said::Quiet].map(count);
        let turned_back = count(Said::TurnedBack);
        let last = [alarms + quiets + turned_back, alarms, quiets, turned_back];
        let last = last.map(|number| number.to_string()).join(",");
        assert_eq!(self.lines().last(), Some(&last), "{}", self.shown());
        let lines = self.readings.split_inclusive(|&byte| byte == b'\n');
        assert_eq!(lines.count(), self.said.len(), "{}", self.shown());
    }

    /// Each setting alone gives its own line and the same last one.
    fn one_by_one(&self) {
        let lines = self.lines();
        let (last, own) = lines.split_last().expect("a last line");
        assert_eq!(own.len(), self.settings.len());
        for (line, setting) in own.iter().zip(&self.settings) {
            let alone = self.tried(&[*setting], &self.readings);
            let owed = format!("{line}\n{last}\n");
            assert_eq!(alone, owed.as_bytes(), "{}", self.shown());
        }
    }

    /// Without the readings that are turned back the settings have the same lines.
    fn without_those_turned_back(&self) {
        let lines = self.readings.split_inclusive(|&byte| byte == b'\n');
        let kept = lines.zip(&self.said);
        let kept = kept.filter(|(_, said)| **said != Said::TurnedBack);
        let kept: Vec<&[u8]> = kept.map(|(line, _)| line).collect();
        let trial = self.tried(&self.settings, &kept.concat());
        if kept.is_empty() {
            assert_eq!(trial, b"NO,1,0\n");
            return;
        }
        let lines = lines_of(&trial);
        let count = self.settings.len();
        assert_eq!(lines[..count], self.lines()[..count], "{}", self.shown());
        assert!(lines[count].ends_with(",0"), "{}", self.shown());
    }

    /// A refused text is told as the programs before tell it, whatever the settings are.
    fn refused(&self, random: &mut Random) {
        let mut record = self.record.clone();
        let place = random.index(record.len());
        record[place] ^= 1 + random.below(255) as u8;
        let verified = programs::verify(&self.text, &record);
        for settings in [&b"1,1\n"[..], b"", b"1,1"] {
            let trial = programs::alerts(&self.text, &record, settings, &self.readings);
            if verified != b"OK\n" {
                assert_eq!(trial, verified, "{}", self.shown());
            } else if settings != b"1,1\n" {
                assert_eq!(trial, b"NO,14,0\n", "{}", self.shown());
            } else {
                assert!(trial.starts_with(b"1,1,"), "{}", self.shown());
            }
        }
    }

    fn lines(&self) -> Vec<String> {
        lines_of(&self.trial)
    }

    fn outcomes(&self) -> [(&'static str, bool); 3] {
        let alerts = self.settings.iter();
        let alerts: Vec<_> = alerts.map(|&own| alerts::alerts(&self.said, own)).collect();
        [
            ("raised", alerts.iter().any(|own| own.raised > 0)),
            (
                "passed more than raised",
                alerts.iter().any(|own| own.passed > own.raised),
            ),
            ("turned back", self.said.contains(&Said::TurnedBack)),
        ]
    }

    fn shown(&self) -> String {
        let [text, record, readings] = [&self.text, &self.record, &self.readings];
        let settings = &self.settings;
        let [text, record, readings] = [text, record, readings].map(|text| text.escape_ascii());
        format!("{text}, {record}, {settings:?}, {readings}")
    }
}

/// The envelope of a drawn record, with readings about the rows.
fn edge(random: &mut Random, reference: &Draft, record: &[u8]) -> Edge {
    let rows = TypedRows {
        set: envelopes::set_of(reference),
        types: reference::codes(&reference.types),
    };
    let envelope = records::read(&rows, record).expect("a record that was drawn");
    let places = reference.table.chunks(reference.types.len());
    let places: Vec<Vec<i32>> = places.map(<[i32]>::to_vec).collect();
    Edge::about(random, envelope.figures, &places)
}

fn lines_of(output: &[u8]) -> Vec<String> {
    let text = std::str::from_utf8(output).expect("a text");
    text.lines().map(String::from).collect()
}

/// The verdicts that `judge` printed, line by line.
fn said_by_judge(output: &[u8]) -> Vec<Said> {
    let said = |line: String| match line.split(',').next() {
        Some("ALARM") => Said::Alarm,
        Some("QUIET") => Said::Quiet,
        Some("NO") => Said::TurnedBack,
        _ => panic!("no verdict: {line}"),
    };
    lines_of(output).into_iter().map(said).collect()
}

/// A run of the program with document 01's record and six readings.
fn run_with(settings: &[u8]) -> Run {
    let readings = known_alerts::readings("AAQAQQ");
    let texts = [
        REFERENCE.into(),
        RECORD.into(),
        settings.to_vec(),
        readings.into_bytes(),
    ];
    Run::new(Program::Alerts, &texts)
}

/// Texts of settings, each whole or with one to three kinds of damage.
fn compare_settings(random: &mut Random, texts: u64) {
    let mut reached = Reached::default();
    for _ in 0..texts {
        let mut text = settings_texts::whole(random);
        let kinds = random.pick(&[0, 1, 1, 1, 1, 1, 2, 3]);
        for _ in 0..kinds {
            let kind = settings_texts::kind(random);
            settings_texts::damage(random, &mut text, kind);
            reached.count(format!("damage: {kind:?}"));
        }
        let run = run_with(&text);
        let length = run.output.len();
        assert_eq!(run.compare(random, length), 0, "{}", run.shown());
        let refused = run.output == b"NO,14,0\n";
        assert!(kinds > 0 || !refused, "{}", run.shown());
        reached.count(format!("damaged {}: refused {refused}", kinds > 0));
    }
    println!("texts of settings: {texts}");
    reached.print();
    for kind in settings_texts::damages() {
        reached.require(&format!("damage: {kind:?}"), texts / DAMAGE_SHARE);
    }
    for name in [
        "damaged false: refused false",
        "damaged true: refused false",
        "damaged true: refused true",
    ] {
        reached.require(name, texts / SHARE);
    }
}

fn compare_sweeps(random: &mut Random) {
    let (mut swept, mut accepted) = (0, 0);
    sweeps::settings(|text| {
        let run = run_with(text);
        let length = run.output.len();
        assert_eq!(run.compare(random, length), 0, "{}", run.shown());
        accepted += u64::from(run.output != b"NO,14,0\n");
        swept += 1;
    });
    println!("texts of settings in sweeps: {swept}, accepted: {accepted}");
    assert!(swept > LEAST_SWEPT && accepted > 100, "{swept}, {accepted}");
}
