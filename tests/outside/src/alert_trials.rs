//! Seeded trials of alert settings: readings at and about the edge of a ball, in runs of Alarms and Quiets,
//! with lines between them that are turned back; settings and figures within the limits and outside.

use crate::alerts::{self, RUN_LIMIT, SETTING_LIMIT, Setting};
use crate::envelopes::{self, FIGURE_FAULTS};
use crate::random::Random;
use crate::reading_damage;
use crate::reading_texts::{self, ReadingDraft};
use crate::readings::{self, EnvelopeFigures};
use crate::reference::{ChannelType, TEXT_LIMIT};
use crate::rules::Refusal;
use crate::settings_texts;

/// How many trials are made of one envelope.
const OF_ONE_ENVELOPE: usize = 12;
/// How many readings about a row of an envelope are tried for both verdicts.
const TRIED: usize = 24;
/// The most bytes of a damaged line.
const LONGEST_LINE: usize = 200;
/// As many steps from a row at most.
const STEPS: i32 = 3;

/// A trial as it is lent to the call.
#[derive(Clone, Debug)]
pub struct TrialCall {
    pub figures: EnvelopeFigures,
    /// k, c, k, c and so on.
    pub settings: Vec<u32>,
    pub readings: Vec<u8>,
    /// What it is made of, by name.
    pub kinds: Vec<String>,
    /// Which of 8, 14 and 1 it was given, in this order.
    pub faults: Vec<u32>,
}

impl TrialCall {
    /// Whether the answer is as owed to the faults: the first of them, at line 0.
    pub fn allows(&self, outcome: &Result<Vec<u8>, Refusal>) -> bool {
        let owed = self.faults.first();
        owed.map(|&number| Refusal { number, line: 0 }) == outcome.as_ref().err().copied()
    }
}

/// An envelope, and lines of readings by their verdicts.
#[derive(Clone, Debug)]
pub struct Edge {
    pub figures: EnvelopeFigures,
    pub types: Vec<ChannelType>,
    pub alarms: Vec<Vec<u8>>,
    pub quiets: Vec<Vec<u8>>,
}

impl Edge {
    /// An envelope with readings of both verdicts close to its edge.
    pub fn new(random: &mut Random) -> Edge {
        loop {
            let (figures, rows) = envelope(random);
            let edge = Edge::about(random, figures, &rows);
            if !edge.alarms.is_empty() && !edge.quiets.is_empty() {
                return edge;
            }
        }
    }

    /// The readings a few steps from these rows, by their verdicts.
    pub fn about(random: &mut Random, figures: EnvelopeFigures, rows: &[Vec<i32>]) -> Edge {
        let (types, centre) = figures.within_limits().expect("figures within the limits");
        let (mut alarms, mut quiets) = (Vec::new(), Vec::new());
        for place in 0..TRIED {
            let row = &rows[random.index(rows.len())];
            let values = match place {
                0 => row.clone(),
                _ => neighbour(random, row, &types),
            };
            let s = readings::scaled_squared_distance(&values, &centre);
            let line = reading_texts::of_values(random, &types, &values);
            if s > i128::from(figures.scaled_squared_radius) {
                alarms.push(line);
            } else {
                quiets.push(line);
            }
        }
        Edge {
            figures,
            types,
            alarms,
            quiets,
        }
    }

    /// At least so many readings in runs, with lines before one in `turned_back` of them that are turned
    /// back; no such lines where that is 0.
    pub fn in_runs(&self, random: &mut Random, count: usize, turned_back: u64) -> Vec<u8> {
        let mut text = Vec::new();
        let (mut met, mut alarm) = (0, random.once_in(2));
        while met < count {
            let run = run_length(random, count);
            for _ in 0..run {
                while turned_back > 0 && random.once_in(turned_back) {
                    text.extend(self.turned_back(random));
                }
                let pool = if alarm { &self.alarms } else { &self.quiets };
                text.extend(&pool[random.index(pool.len())]);
            }
            met += run;
            alarm = !alarm;
        }
        text
    }

    /// A line that is turned back: an empty one, or one of a damaged reading, which a few times is in form
    /// still.
    fn turned_back(&self, random: &mut Random) -> Vec<u8> {
        let mut line = match random.below(8) {
            0..3 => Vec::new(),
            3 => random.pick(&["LOOP-1", "A,TOC", ",", "1,1", "A\r"]).into(),
            4 => reading_texts::of_values(random, &self.types, &vec![4_001; self.types.len()]),
            _ => {
                let mut text = self.quiets[random.index(self.quiets.len())].clone();
                let kind = reading_damage::kind(random);
                reading_damage::damage(random, &mut text, kind, &self.types);
                text
            }
        };
        let length = line.iter().take_while(|&&byte| byte != b'\n').count();
        line.truncate(length.min(LONGEST_LINE));
        line.push(b'\n');
        line
    }
}

/// Figures and rows at the edge of their ball, or inside: those of a drawing or a check, or any figures
/// with the M at which s of a row is M, a little less or a little more.
fn envelope(random: &mut Random) -> (EnvelopeFigures, Vec<Vec<i32>>) {
    let fitted = match random.below(4) {
        0 => envelopes::drawn(random),
        1 => envelopes::checked(random),
        _ => return at_a_row(random),
    };
    let n = fitted.figures.n;
    let rows = fitted.reference.table.chunks(n).map(<[i32]>::to_vec);
    (fitted.figures, rows.collect())
}

fn at_a_row(random: &mut Random) -> (EnvelopeFigures, Vec<Vec<i32>>) {
    loop {
        let mut types = reading_texts::types(random);
        let most = random.pick(&[1, 1, 2, 8]);
        types.truncate(most);
        let figures = envelopes::any(random, &types);
        let row = ReadingDraft::new(random, &types).row;
        let excess = random.pick(&[0, 1, -1]);
        if let Some(figures) = envelopes::with_excess(&figures, &row, excess) {
            return (figures, vec![row]);
        }
    }
}

/// A row with each value a few steps more or less, where the range allows that.
fn neighbour(random: &mut Random, row: &[i32], types: &[ChannelType]) -> Vec<i32> {
    let values = row.iter().zip(types);
    let mut changed = |(value, channel): (&i32, &ChannelType)| {
        let value = value + random.between(-STEPS, STEPS);
        value.clamp(channel.low, channel.high)
    };
    values.map(&mut changed).collect()
}

/// Mostly a few readings; in longer files also as many as the largest k and c.
fn run_length(random: &mut Random, count: usize) -> usize {
    let limit = RUN_LIMIT as usize;
    match random.below(16) {
        0 if count > limit => limit - 2 + random.index(5),
        0..3 => 1 + random.index(12),
        _ => 1 + random.index(4),
    }
}

/// Trials of one envelope.
pub fn some(random: &mut Random) -> Vec<TrialCall> {
    let edge = Edge::new(random);
    (0..OF_ONE_ENVELOPE)
        .map(|_| match random.below(4) {
            0 => faulty(random, &edge),
            _ => whole(random, &edge),
        })
        .collect()
}

/// A trial that is accepted.
fn whole(random: &mut Random, edge: &Edge) -> TrialCall {
    let (count, name) = match random.below(2_000) {
        0 => (TEXT_LIMIT, "full"),
        1..50 => (100 + random.index(300), "long"),
        50..300 => (1 + random.index(60), "of some readings"),
        _ => (1 + random.index(12), "of few readings"),
    };
    let turned_back = random.pick(&[0, 2, 4, 16]);
    let mut kinds = vec![format!("readings: {name}")];
    let mut text = edge.in_runs(random, count.min(TEXT_LIMIT / 12), turned_back);
    if name == "full" {
        text = text.repeat(TEXT_LIMIT / text.len() + 1);
    }
    text.truncate(TEXT_LIMIT);
    if random.once_in(4) {
        text.truncate(text.len() - 1 - random.index(text.len().min(8) - 1));
        kinds.push(String::from("readings: cut off"));
    }
    let mut settings = settings_texts::settings(random);
    if count > RUN_LIMIT as usize {
        settings
            .iter_mut()
            .for_each(|setting| lengthen(random, setting));
    }
    let distinct = |place: usize| !settings[..place].contains(&settings[place]);
    if !(0..settings.len()).all(distinct) {
        kinds.push(String::from("settings: equal ones"));
    }
    if settings.len() == SETTING_LIMIT {
        kinds.push(String::from("settings: 20"));
    }
    TrialCall {
        figures: edge.figures.clone(),
        settings: alerts::flat(&settings),
        readings: text,
        kinds,
        faults: Vec::new(),
    }
}

/// Makes k and c as large as the longest runs, one time in four each.
fn lengthen(random: &mut Random, Setting { k, c }: &mut Setting) {
    for number in [k, c] {
        let large = RUN_LIMIT - random.below(3) as u32;
        *number = random.pick(&[*number, *number, *number, large]);
    }
}

/// A trial with one fault or more, each of them for 8, 14 or 1.
fn faulty(random: &mut Random, edge: &Edge) -> TrialCall {
    let mut call = whole(random, edge);
    let which = 1 + random.below(7);
    if which & 1 > 0 {
        put_in_figures(random, &mut call);
    }
    if which & 2 > 0 {
        let fault = random.pick(&SETTING_FAULTS);
        put_in_settings(random, &mut call.settings, fault);
        call.kinds.push(format!("settings: {fault:?}"));
        call.faults.push(14);
    }
    if which & 4 > 0 {
        put_in_length(random, &mut call);
    }
    call
}

fn put_in_figures(random: &mut Random, call: &mut TrialCall) {
    let fault = random.pick(&FIGURE_FAULTS);
    let channel = random.index(call.figures.n);
    envelopes::put(random, &mut call.figures, fault, channel);
    call.kinds.push(format!("figure: {fault:?}"));
    call.faults.push(8);
}

/// No reading, or more bytes than there may be.
fn put_in_length(random: &mut Random, call: &mut TrialCall) {
    let name = if random.below(16) > 0 {
        call.readings.clear();
        "none"
    } else {
        let longer = TEXT_LIMIT + 1 + random.pick(&[0, 0, 1, 4_463]);
        call.readings = call.readings.repeat(longer / call.readings.len() + 1);
        call.readings.truncate(longer);
        "too long"
    };
    call.kinds.push(format!("readings: {name}"));
    call.faults.push(1);
}

/// How a list of settings is outside its limits: refusal 14 is owed.
#[derive(Clone, Copy, Debug, PartialEq, Eq)]
pub enum SettingFault {
    Zero,
    OneHundred,
    /// As large as a number can be, or the same as one within its limits in 8 or 16 bits.
    Large,
    NumberDropped,
    NumberAdded,
    None,
    TwentyOne,
    Many,
}

pub const SETTING_FAULTS: [SettingFault; 8] = [
    SettingFault::Zero,
    SettingFault::OneHundred,
    SettingFault::Large,
    SettingFault::NumberDropped,
    SettingFault::NumberAdded,
    SettingFault::None,
    SettingFault::TwentyOne,
    SettingFault::Many,
];

fn put_in_settings(random: &mut Random, settings: &mut Vec<u32>, fault: SettingFault) {
    let place = random.index(settings.len());
    let large = 1 + random.below(RUN_LIMIT.into()) as u32;
    match fault {
        SettingFault::Zero => settings[place] = 0,
        SettingFault::OneHundred => settings[place] = RUN_LIMIT + 1,
        SettingFault::Large => {
            let numbers = [u32::MAX, 1 << 31, large + (1 << 8), large + (1 << 16)];
            settings[place] = random.pick(&numbers);
        }
        SettingFault::NumberDropped => drop(settings.pop()),
        SettingFault::NumberAdded => settings.push(large),
        SettingFault::None => settings.clear(),
        SettingFault::TwentyOne => settings.resize(2 * SETTING_LIMIT + 2, large),
        SettingFault::Many => {
            let count = 22 + random.index(300);
            settings.resize(2 * count, large);
        }
    }
}

/// Every kind of trial, by name.
pub fn kinds() -> Vec<String> {
    let readings = [
        "full",
        "long",
        "of some readings",
        "of few readings",
        "cut off",
        "none",
        "too long",
    ];
    let mut names: Vec<String> = readings.map(|name| format!("readings: {name}")).into();
    names.extend(["equal ones", "20"].map(|name| format!("settings: {name}")));
    names.extend(FIGURE_FAULTS.map(|fault| format!("figure: {fault:?}")));
    names.extend(SETTING_FAULTS.map(|fault| format!("settings: {fault:?}")));
    names
}
