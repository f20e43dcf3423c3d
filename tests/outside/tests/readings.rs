//! The outside implementation of readings held to answers that were written down or are known from
//! how a call was made.

use outside::envelopes::{self, FIGURE_FAULTS, Fitted};
use outside::known_readings;
use outside::random::Random;
use outside::reading_damage;
use outside::reading_faults::{
    self, Fault, FaultyCall, LINE_FAULTS, LengthFault, ORDER, STRETCHED,
};
use outside::reading_texts::{self, ReadingDraft};
use outside::readings::{self, EnvelopeFigures, Verdict};
use outside::reference::CHANNEL_TYPES;
use outside::rules::Refusal;
use outside::sweeps;
use std::collections::{BTreeMap, BTreeSet};

#[test]
fn known_readings_hold() {
    let list = known_readings::all();
    assert!(list.len() >= 150, "{}", list.len());
    for known in list {
        let outcome = readings::judge(&known.figures, &known.text);
        assert_eq!(outcome, known.outcome, "{}", known.name);
    }
}

/// The values of a reading are those that it was made of, and the verdict is that of their s.
#[test]
fn whole_readings_are_judged() {
    let mut random = Random::new(21);
    let mut alarms = 0;
    for _ in 0..20_000 {
        let types = reading_texts::types(&mut random);
        let figures = envelopes::any(&mut random, &types);
        let draft = ReadingDraft::new(&mut random, &types);
        let text = draft.bytes();
        assert_eq!(readings::read(&text, &types), Ok(draft.row.clone()));
        let mut excess = -i128::from(figures.scaled_squared_radius);
        for (&value, &x) in draft.row.iter().zip(&figures.scaled_centre) {
            excess += (65_536 * i128::from(value) - i128::from(x)).pow(2);
        }
        let verdict = match excess {
            1.. => Verdict::Alarm { excess },
            _ => Verdict::Quiet,
        };
        assert_eq!(readings::judge(&figures, &text), Ok(verdict));
        alarms += u32::from(excess > 0);
    }
    assert!((2_000..18_000).contains(&alarms), "{alarms}");
}

#[test]
fn verdicts_at_the_edge() {
    let mut random = Random::new(22);
    let edges = [
        (0, Verdict::Quiet),
        (-1, Verdict::Quiet),
        (1, Verdict::Alarm { excess: 1 }),
    ];
    let mut judged = 0;
    for _ in 0..5_000 {
        let types = reading_texts::types(&mut random);
        let any = envelopes::any(&mut random, &types);
        let draft = ReadingDraft::new(&mut random, &types);
        for (excess, verdict) in edges {
            if let Some(figures) = envelopes::with_excess(&any, &draft.row, excess) {
                assert_eq!(readings::judge(&figures, &draft.bytes()), Ok(verdict));
                judged += 1;
            }
        }
    }
    assert!(judged > 14_000, "{judged}");
}

#[test]
fn reference_rows_are_quiet() {
    let mut random = Random::new(23);
    let makers: [fn(&mut Random) -> Fitted; 2] = [envelopes::drawn, envelopes::checked];
    for make in makers {
        for _ in 0..1_000 {
            let Fitted { reference, figures } = make(&mut random);
            for text in reading_texts::of_rows(&reference) {
                let verdict = readings::judge(&figures, &text);
                assert_eq!(verdict, Ok(Verdict::Quiet), "{figures:?}");
            }
        }
    }
}

/// The farthest row is at the edge: with M less by 1, some row is an Alarm with excess 1.
#[test]
fn a_smaller_ball_leaves_a_row_out() {
    let mut random = Random::new(24);
    let mut made = 0;
    for _ in 0..1_000 {
        let Fitted { reference, figures } = envelopes::drawn(&mut random);
        let Some(scaled_squared_radius) = figures.scaled_squared_radius.checked_sub(1) else {
            continue;
        };
        let smaller = EnvelopeFigures {
            scaled_squared_radius,
            ..figures
        };
        let alarm = Ok(Verdict::Alarm { excess: 1 });
        let texts = reading_texts::of_rows(&reference);
        assert!(
            texts
                .iter()
                .any(|text| readings::judge(&smaller, text) == alarm)
        );
        made += 1;
    }
    assert!(made > 500, "{made}");
}

/// Every fault by itself, with its number.
fn faults() -> Vec<(Fault, u32)> {
    let figures = FIGURE_FAULTS.map(|fault| (Fault::Figures(fault), 8));
    let lengths = STRETCHED.map(|part| (Fault::Length(LengthFault::TooLong(part)), 1));
    let lines = LINE_FAULTS.map(|fault| (Fault::Line(fault), fault.number()));
    let mut list = vec![(Fault::Length(LengthFault::Empty), 1)];
    list.extend(figures);
    list.extend(lengths);
    list.extend(lines);
    list
}

fn answers(call: &FaultyCall) {
    let outcome = readings::judge(&call.figures, &call.text);
    assert_eq!(outcome, Err(call.refusal), "{call:?}");
}

#[test]
fn each_fault_has_its_number() {
    let mut random = Random::new(25);
    for (fault, number) in faults() {
        let line = u32::from(!matches!(number, 8 | 1));
        for _ in 0..50 {
            let call = reading_faults::one_fault(&mut random, fault);
            assert_eq!(call.refusal, Refusal { number, line }, "{fault:?}");
            answers(&call);
        }
    }
}

#[test]
fn each_number_is_as_likely() {
    let mut random = Random::new(26);
    let mut numbers: BTreeMap<u32, u32> = BTreeMap::new();
    for _ in 0..30_000 {
        let number = reading_faults::line_fault(&mut random).number();
        *numbers.entry(number).or_default() += 1;
    }
    assert!(numbers.keys().copied().eq([3, 4, 10]));
    assert!(
        numbers
            .values()
            .all(|count| (9_500..10_500).contains(count))
    );
}

/// Every pair of numbers stands in both orders and in one channel.
#[test]
fn the_first_of_two_faults_is_given() {
    let mut random = Random::new(27);
    let mut pairs: BTreeMap<([u32; 2], bool), u32> = BTreeMap::new();
    for _ in 0..10_000 {
        for faults in reading_faults::two_faults(&mut random) {
            answers(&faults.call);
            let first = ORDER.iter().find(|number| faults.numbers.contains(number));
            assert_eq!(Some(&faults.call.refusal.number), first);
            *pairs
                .entry((faults.numbers, faults.in_one_channel))
                .or_default() += 1;
        }
    }
    assert_eq!(pairs.len(), 2 * 20);
    assert!(pairs.values().all(|&count| count > 100), "{pairs:?}");
}

#[test]
fn readings_of_as_many_bytes_as_the_limit() {
    let mut random = Random::new(28);
    let mut numbers = BTreeSet::new();
    for part in STRETCHED {
        for _ in 0..20 {
            let call = reading_faults::at_the_limit(&mut random, part);
            answers(&call);
            numbers.insert(call.refusal.number);
        }
    }
    assert!(numbers.into_iter().eq([3, 4, 10]));
}

/// Damage reaches every answer of a reading, and leaves some readings accepted.
#[test]
fn damage_reaches_every_answer() {
    let mut random = Random::new(29);
    let mut reached: BTreeMap<u32, u32> = BTreeMap::new();
    for _ in 0..20_000 {
        let types = reading_texts::types(&mut random);
        let figures = envelopes::any(&mut random, &types);
        let mut text = ReadingDraft::new(&mut random, &types).bytes();
        let kind = reading_damage::kind(&mut random);
        reading_damage::damage(&mut random, &mut text, kind, &types);
        let outcome = readings::judge(&figures, &text);
        let number = outcome.map_or_else(|refusal| refusal.number, |_| 0);
        *reached.entry(number).or_default() += 1;
    }
    assert!(reached.keys().copied().eq([0, 1, 3, 4, 10]), "{reached:?}");
    assert!(reached.values().all(|&count| count >= 200), "{reached:?}");
}

/// How often each number is answered, where every value in range is Quiet; 0 where accepted.
fn count_numbers(mut sweep: impl FnMut(&mut dyn FnMut(&[u8], &[u8]))) -> BTreeMap<u32, u32> {
    let mut counts: BTreeMap<u32, u32> = BTreeMap::new();
    sweep(&mut |codes, text| {
        let figures = EnvelopeFigures {
            n: codes.len(),
            types: codes.to_vec(),
            scaled_centre: vec![0; codes.len()],
            scaled_squared_radius: readings::DISTANCE_LIMIT,
            scaled_lower_bound: 0,
            settled: 1,
            moves: 0,
        };
        let outcome = readings::judge(&figures, text);
        assert!(!matches!(outcome, Ok(Verdict::Alarm { .. })));
        let number = outcome.map_or_else(|refusal| refusal.number, |_| 0);
        *counts.entry(number).or_default() += 1;
    });
    counts
}

/// Of the tags one is that of the type, and 4001 is outside its range.
#[test]
fn sweep_of_tags() {
    let counts = count_numbers(|visit| {
        sweeps::tags_of_readings(|channel, text| visit(&[channel.code], text));
    });
    let tags = 1 + 26 + 26 * 26 + 26 * 26 * 26;
    let wrong = 2 * 8 * (tags - 1);
    assert_eq!(counts, BTreeMap::from([(0, 8), (4, 8), (10, wrong)]));
}

/// Besides the short fields, the numbers within the range of each type are accepted, and those from
/// 1 to its high after `<`.
#[test]
fn sweep_of_values() {
    let counts = count_numbers(|visit| {
        sweeps::values_of_readings(|channel, text| visit(&[channel.code], text));
    });
    assert!(counts.keys().copied().eq([0, 3, 4]), "{counts:?}");
    let plain: i32 = CHANNEL_TYPES.map(|c| c.high - c.low + 1).iter().sum();
    let below: i32 = CHANNEL_TYPES.map(|c| c.high).iter().sum();
    assert!(counts[&0] > (plain + below) as u32, "{counts:?}");
}

/// `<v` reads as the whole part of v/2, which is within the range, in a reading of every type.
#[test]
fn every_value_below_detection_reads_as_half() {
    let mut read = 0;
    sweeps::readings_below_detection(|channel, number, text| {
        let values = readings::read(text, &[*channel]).expect("a reading in range");
        let [reads] = values[..] else {
            panic!("{} values", values.len());
        };
        assert!((2 * reads..2 * reads + 2).contains(&number), "<{number}");
        assert!((channel.low..=channel.high).contains(&reads), "<{number}");
        read += 1;
    });
    assert_eq!(read, sweeps::BELOW_DETECTION);
}

#[test]
fn sweep_of_bytes() {
    let counts = count_numbers(|visit| {
        for (text, codes) in sweeps::SMALL_READINGS {
            sweeps::one_byte_changes(text.as_bytes(), |changed| visit(codes, changed));
        }
    });
    assert!(counts.keys().copied().eq([0, 1, 3, 4, 10]), "{counts:?}");
}
