//! The outside implementation of measured readings held to answers that were written down or are
//! known from how a reading was made.

use outside::envelopes;
use outside::known_measured::{self, KnownMeasured};
use outside::known_readings;
use outside::random::Random;
use outside::reading_calls;
use outside::reading_texts::{self, ReadingDraft};
use outside::readings::{self, Verdict};
use outside::reference::CHANNEL_TYPES;
use std::collections::{BTreeMap, BTreeSet};

/// What the lent places have before a call.
const BEFORE: i32 = 77_777;

fn measure_into(known: &KnownMeasured) {
    let mut values = vec![BEFORE; known.places];
    let outcome = readings::measure_into(&known.figures, &known.text, &mut values);
    assert_eq!(outcome, known.outcome, "{}", known.name);
    let filled = outcome.map_or(Vec::new(), |measured| measured.values);
    let (first, behind) = values.split_at(filled.len());
    assert_eq!(first, filled, "{}", known.name);
    assert!(
        behind.iter().all(|&place| place == BEFORE),
        "{}",
        known.name
    );
}

#[test]
fn known_measured_readings_hold() {
    let list = known_measured::all();
    assert!(list.len() >= 130, "{}", list.len());
    for known in list {
        measure_into(&known);
    }
}

/// Of what was written down, s is M and the excess, or at most M; every refusal is among it.
#[test]
fn known_measured_readings_agree_in_themselves() {
    let mut numbers: BTreeMap<u32, u32> = BTreeMap::new();
    for known in known_measured::all() {
        let radius = i128::from(known.figures.scaled_squared_radius);
        let number = match known.outcome {
            Ok(measured) => {
                let s = measured.scaled_squared_distance;
                match measured.verdict {
                    Verdict::Quiet => assert!((0..=radius).contains(&s), "{}", known.name),
                    Verdict::Alarm { excess } => {
                        assert!(excess > 0 && s == radius + excess, "{}", known.name);
                    }
                }
                assert_eq!(measured.values.len(), known.figures.n, "{}", known.name);
                0
            }
            Err(refusal) => refusal.number,
        };
        *numbers.entry(number).or_default() += 1;
    }
    assert!(numbers.keys().copied().eq([0, 1, 3, 4, 8, 10, 13]));
    assert!(numbers.values().all(|&count| count >= 7), "{numbers:?}");
}

/// A known reading is measured as it is judged, whatever the length of the lent values.
#[test]
fn known_readings_are_measured() {
    let mut short = 0;
    for known in known_readings::all() {
        let n = known.figures.n.min(8);
        for places in [0, n.saturating_sub(1), n, n + 1, 8, 11] {
            let mut values = vec![BEFORE; places];
            let outcome = readings::measure_into(&known.figures, &known.text, &mut values);
            let verdict = outcome.map(|measured| measured.verdict);
            if known.outcome.is_ok() && places < n {
                assert_eq!(verdict.unwrap_err().number, 13, "{}", known.name);
                assert_eq!(values, vec![BEFORE; places], "{}", known.name);
                short += 1;
            } else {
                assert_eq!(verdict, known.outcome, "{}", known.name);
            }
        }
    }
    assert!(short > 80, "{short}");
}

/// The values are those that the reading was made of, and s is the sum of their squares.
#[test]
fn whole_readings_are_measured() {
    let mut random = Random::new(31);
    let mut met: BTreeSet<(u8, i32)> = BTreeSet::new();
    for _ in 0..20_000 {
        let types = reading_texts::types(&mut random);
        let figures = envelopes::any(&mut random, &types);
        let draft = ReadingDraft::new(&mut random, &types);
        let measured = readings::measure(&figures, &draft.bytes()).expect("a whole reading");
        assert_eq!(measured.values, draft.row);
        let deviations = draft.row.iter().zip(&figures.scaled_centre);
        let squares = deviations.map(|(&v, &x)| (65_536 * i128::from(v) - i128::from(x)).pow(2));
        assert_eq!(measured.scaled_squared_distance, squares.sum());
        met.extend(types.iter().map(|channel| channel.code).zip(draft.row));
    }
    for channel in CHANNEL_TYPES {
        assert!(met.contains(&(channel.code, channel.low)), "{channel:?}");
        assert!(met.contains(&(channel.code, channel.high)), "{channel:?}");
    }
}

/// Every answer that is known from how a call was made is given.
#[test]
fn seeded_calls_are_answered_as_owed() {
    let mut random = Random::new(32);
    let mut numbers: BTreeMap<u32, u32> = BTreeMap::new();
    for _ in 0..10_000 {
        for call in reading_calls::some(&mut random) {
            let outcome = readings::judge(&call.figures, &call.text);
            assert!(call.allows(&outcome), "{call:?}, {outcome:?}");
            let number = outcome.map_or_else(|refusal| refusal.number, |_| 0);
            *numbers.entry(number).or_default() += 1;
        }
    }
    assert!(numbers.keys().copied().eq([0, 1, 3, 4, 8, 10]));
    assert!(numbers.values().all(|&count| count > 500), "{numbers:?}");
}
