//! Seeded calls of a reading, whole and damaged, against envelopes drawn, checked and arbitrary,
//! within the limits and just outside, each with the names of what it is made of and what is known
//! of its answer.

use crate::envelopes::{self, FIGURE_FAULTS, Fitted};
use crate::random::Random;
use crate::reading_damage;
use crate::reading_faults::{self, Fault, FaultyCall, LINE_FAULTS, ORDER, STRETCHED, TwoFaults};
use crate::reading_texts::{self, ReadingDraft};
use crate::readings::{EnvelopeFigures, Verdict};
use crate::reference::ChannelType;
use crate::rules::Refusal;

/// How many readings are made for one envelope, besides its rows.
const OF_ONE_ENVELOPE: usize = 8;

/// M of a radius of 500 steps, for sweeps.
const RADIUS: u64 = 1_073_741_824_000_000;

/// s - M at the edge, with its name.
const EDGES: [(i128, &str); 3] = [
    (0, "edge: s = M"),
    (1, "edge: s = M + 1"),
    (-1, "edge: s = M - 1"),
];

/// What is known of the answer from how a call was made.
#[derive(Clone, Debug)]
pub enum Owed {
    Any,
    Accepted,
    Answer(Result<Verdict, Refusal>),
}

#[derive(Clone, Debug)]
pub struct ReadingCall {
    pub figures: EnvelopeFigures,
    pub text: Vec<u8>,
    /// What it is made of, by name.
    pub kinds: Vec<String>,
    pub owed: Owed,
}

impl ReadingCall {
    fn faulty(call: FaultyCall, kind: String) -> ReadingCall {
        ReadingCall {
            figures: call.figures,
            text: call.text,
            kinds: vec![kind],
            owed: Owed::Answer(Err(call.refusal)),
        }
    }

    /// Whether the answer is as owed.
    pub fn allows(&self, outcome: &Result<Verdict, Refusal>) -> bool {
        match &self.owed {
            Owed::Any => true,
            Owed::Accepted => outcome.is_ok(),
            Owed::Answer(owed) => outcome == owed,
        }
    }
}

/// Readings of one envelope, a figure outside its limits, one fault of the line, two faults in both
/// orders, or a text as long as it can be.
pub fn some(random: &mut Random) -> Vec<ReadingCall> {
    match random.below(64) {
        0..16 => of_envelope(random),
        16..32 => vec![outside(random)],
        32..48 => {
            let fault = Fault::Line(reading_faults::line_fault(random));
            let call = reading_faults::one_fault(random, fault);
            vec![ReadingCall::faulty(call, format!("fault: {fault:?}"))]
        }
        48..63 => {
            let calls = reading_faults::two_faults(random).into_iter();
            calls.map(two_faults).collect()
        }
        _ => {
            let part = random.pick(&STRETCHED);
            let call = reading_faults::at_the_limit(random, part);
            vec![ReadingCall::faulty(call, at_the_limit_name())]
        }
    }
}

/// The rows of an envelope, and readings whole, damaged and at the edge of its ball.
fn of_envelope(random: &mut Random) -> Vec<ReadingCall> {
    let (name, figures, rows) = envelope(random);
    let row = |text| ReadingCall {
        figures: figures.clone(),
        text,
        kinds: vec![String::from("reading: reference row")],
        owed: Owed::Answer(Ok(Verdict::Quiet)),
    };
    let mut calls: Vec<ReadingCall> = rows.into_iter().map(row).collect();
    let (types, _) = figures.within_limits().expect("figures within the limits");
    for _ in 0..OF_ONE_ENVELOPE {
        match random.below(5) {
            0..2 => calls.push(whole(random, &figures, &types)),
            2..4 => calls.push(damaged(random, &figures, &types)),
            _ => calls.extend(at_the_edge(random, &figures, &types)),
        }
    }
    for call in &mut calls {
        call.kinds.push(format!("envelope: {name}"));
    }
    calls
}

fn whole(random: &mut Random, figures: &EnvelopeFigures, types: &[ChannelType]) -> ReadingCall {
    ReadingCall {
        figures: figures.clone(),
        text: ReadingDraft::new(random, types).bytes(),
        kinds: vec![String::from("reading: whole")],
        owed: Owed::Accepted,
    }
}

fn damaged(random: &mut Random, figures: &EnvelopeFigures, types: &[ChannelType]) -> ReadingCall {
    let (text, mut kinds) = damaged_text(random, types);
    kinds.push(String::from("reading: damaged"));
    ReadingCall {
        figures: figures.clone(),
        text,
        kinds,
        owed: Owed::Any,
    }
}

/// One to three kinds of damage, one after the other, with their names.
fn damaged_text(random: &mut Random, types: &[ChannelType]) -> (Vec<u8>, Vec<String>) {
    let mut text = ReadingDraft::new(random, types).bytes();
    let mut kinds = Vec::new();
    for _ in 0..=random.index(6) / 3 {
        let kind = reading_damage::kind(random);
        reading_damage::damage(random, &mut text, kind, types);
        kinds.push(format!("damage: {kind:?}"));
    }
    (text, kinds)
}

/// A reading in balls whose M is its s, 1 less and 1 more.
fn at_the_edge(
    random: &mut Random,
    figures: &EnvelopeFigures,
    types: &[ChannelType],
) -> Vec<ReadingCall> {
    let draft = ReadingDraft::new(random, types);
    let call = |(excess, name): (i128, &str)| {
        let verdict = match excess {
            1.. => Verdict::Alarm { excess },
            _ => Verdict::Quiet,
        };
        Some(ReadingCall {
            figures: envelopes::with_excess(figures, &draft.row, excess)?,
            text: draft.bytes(),
            kinds: vec![String::from(name)],
            owed: Owed::Answer(Ok(verdict)),
        })
    };
    EDGES.into_iter().filter_map(call).collect()
}

/// One figure outside its limits, under a whole reading or a damaged one.
fn outside(random: &mut Random) -> ReadingCall {
    let (_, mut figures, _) = envelope(random);
    let (types, _) = figures.within_limits().expect("figures within the limits");
    let (text, mut kinds) = if random.once_in(2) {
        damaged_text(random, &types)
    } else {
        (ReadingDraft::new(random, &types).bytes(), Vec::new())
    };
    let fault = random.pick(&FIGURE_FAULTS);
    let channel = random.index(types.len());
    envelopes::put(random, &mut figures, fault, channel);
    kinds.push(format!("figure: {fault:?}"));
    ReadingCall {
        figures,
        text,
        kinds,
        owed: Owed::Answer(Err(Fault::Figures(fault).refusal())),
    }
}

fn two_faults(faults: TwoFaults) -> ReadingCall {
    let [one, other] = faults.numbers;
    let name = faults_name(one, other, faults.in_one_channel);
    ReadingCall::faulty(faults.call, name)
}

/// Figures within the limits, with the rows that they were drawn from or checked against.
fn envelope(random: &mut Random) -> (&'static str, EnvelopeFigures, Vec<Vec<u8>>) {
    let (name, fitted) = match random.below(3) {
        0 => ("drawn", envelopes::drawn(random)),
        1 => ("checked", envelopes::checked(random)),
        _ => {
            let types = reading_texts::types(random);
            return ("any", envelopes::any(random, &types), Vec::new());
        }
    };
    let Fitted { reference, figures } = fitted;
    (name, figures, reading_texts::of_rows(&reference))
}

/// One of several balls of these types, for a reading of a sweep.
pub fn swept_figures(random: &mut Random, codes: &[u8]) -> EnvelopeFigures {
    let centre = codes.iter().map(|_| random.pick(&[0, 65_536_000]));
    EnvelopeFigures {
        n: codes.len(),
        types: codes.to_vec(),
        scaled_centre: centre.collect(),
        scaled_squared_radius: random.pick(&[0, RADIUS]),
        scaled_lower_bound: 0,
        settled: 1,
        moves: 0,
    }
}

/// The kinds that are met often.
pub fn often() -> Vec<String> {
    let mut names: Vec<String> = EDGES.map(|(_, name)| String::from(name)).into();
    names.extend(["whole", "damaged", "reference row"].map(|kind| format!("reading: {kind}")));
    names
}

/// The other kinds.
pub fn seldom() -> Vec<String> {
    let mut names = vec![at_the_limit_name()];
    names.extend(["drawn", "checked", "any"].map(|kind| format!("envelope: {kind}")));
    names.extend(FIGURE_FAULTS.map(|fault| format!("figure: {fault:?}")));
    names.extend(LINE_FAULTS.map(|fault| format!("fault: {:?}", Fault::Line(fault))));
    let damages = reading_damage::damages().into_iter();
    names.extend(damages.map(|kind| format!("damage: {kind:?}")));
    for one in ORDER {
        for other in ORDER.into_iter().filter(|&other| other != one) {
            names.push(faults_name(one, other, false));
            names.push(faults_name(one, other, true));
        }
    }
    names
}

fn at_the_limit_name() -> String {
    String::from("reading: at the limit")
}

/// The number in the lower channel comes first; in one channel the lower number does.
fn faults_name(one: u32, other: u32, in_one_channel: bool) -> String {
    if in_one_channel {
        let (one, other) = (one.min(other), one.max(other));
        format!("faults: {one} and {other} in one channel")
    } else {
        format!("faults: {one}, then {other}")
    }
}
