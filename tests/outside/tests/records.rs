//! The outside implementation of records held to answers that were written down or are known from
//! how a call was made.

use outside::known_records::{self, RECORD};
use outside::known_writings;
use outside::random::Random;
use outside::record_calls::{self, Fault, FaultyCall, ORDER};
use outside::record_damage;
use outside::record_texts::{self, Enveloped, RecordDraft};
use outside::records::{self, Envelope, TypedRows};
use outside::rules::{self, BUFFER_TOO_SHORT, Refusal};
use outside::sweeps;
use outside::writing_faults::{self, FaultyWriting, WritingCall, WritingFault};
use std::collections::{BTreeMap, BTreeSet};

#[test]
fn known_records_hold() {
    let list = known_records::all();
    assert!(list.len() >= 200, "{}", list.len());
    for known in list {
        let outcome = records::read(&known.rows, &known.text);
        assert_eq!(outcome, known.outcome, "{}", known.name);
    }
}

#[test]
fn known_writings_hold() {
    let list = known_writings::all();
    assert!(list.len() >= 60, "{}", list.len());
    for known in list {
        let outcome = records::write(&known.envelope, &known.places, known.m);
        assert_eq!(outcome, known.outcome, "{}", known.name);
    }
}

/// Document 01: the rows drawn with budget 10,000 give the record, byte for byte.
#[test]
fn the_record_of_document_01() {
    let rows = known_records::rows();
    let drawing = rules::draw(&rows.set.places, 3, 2, 10_000).expect("rows within the limits");
    let mut envelope = known_records::envelope();
    let weights: Vec<u32> = drawing
        .weights
        .iter()
        .map(|&weight| weight as u32)
        .collect();
    assert_eq!(envelope.weights, weights);
    assert_eq!(envelope.figures.moves, drawing.moves);
    envelope.weights = weights;
    let text = records::write(&envelope, &rows.set.places, 3);
    assert_eq!(text, Ok(RECORD.into()));
}

fn write(enveloped: &Enveloped) -> Result<Vec<u8>, Refusal> {
    let set = &enveloped.rows.set;
    records::write(&enveloped.envelope, &set.places, set.m)
}

/// An envelope that is written reads back as itself, without the places past n; and a record that is
/// read is written as itself.
#[test]
fn both_round_trips() {
    let mut random = Random::new(31);
    for _ in 0..3_000 {
        let enveloped = record_texts::any(&mut random);
        let text = write(&enveloped).expect("an envelope that agrees");
        assert_eq!(text, enveloped.text());
        let read = records::read(&enveloped.rows, &text);
        assert_eq!(read, Ok(enveloped.stated()));
    }
}

/// A record that is damaged and still accepted is written as it was read.
#[test]
fn accepted_texts_are_written_as_they_were_read() {
    let mut random = Random::new(32);
    let mut accepted = 0;
    for _ in 0..20_000 {
        let enveloped = record_texts::any(&mut random);
        let (text, _) = record_damage::damaged(&mut random, &enveloped);
        if let Ok(envelope) = records::read(&enveloped.rows, &text) {
            let set = &enveloped.rows.set;
            assert_eq!(records::write(&envelope, &set.places, set.m), Ok(text));
            accepted += 1;
        }
    }
    assert!(accepted > 500, "{accepted}");
}

/// Records of 256 lines of weights.
#[test]
fn full_records() {
    let mut random = Random::new(33);
    for _ in 0..20 {
        let enveloped = Enveloped::full(&mut random);
        let text = write(&enveloped).expect("an envelope that agrees");
        assert_eq!(RecordDraft::of(&text).lines.len(), 3 + 256);
        assert_eq!(
            records::read(&enveloped.rows, &text),
            Ok(enveloped.stated())
        );
    }
}

/// What writing accepts by the check itself: every figure is the check's, and no weight is past m.
#[test]
fn writing_accepts_what_the_check_gives() {
    let mut random = Random::new(34);
    let mut reached = BTreeSet::new();
    for _ in 0..5_000 {
        let call = match random.below(3) {
            0 => {
                let enveloped = record_texts::any(&mut random);
                WritingCall::new(&mut random, &enveloped)
            }
            _ => {
                let fault = random.pick(&writing_faults::DISAGREEMENTS);
                let enveloped = written_with(&mut random, fault);
                writing_faults::one_fault(&mut random, &enveloped, fault).call
            }
        };
        let Envelope { figures, weights } = &call.envelope;
        let (own, past) = weights.split_at(call.set.m);
        let agrees =
            rules::check(&call.set.places, call.set.m, call.set.n, own).is_ok_and(|checked| {
                let centre = checked.scaled_centre.iter().map(|&place| place as i64);
                centre.eq(figures.scaled_centre[..figures.n].iter().copied())
                    && checked.scaled_squared_radius == i128::from(figures.scaled_squared_radius)
                    && checked.scaled_lower_bound == i128::from(figures.scaled_lower_bound)
                    && u32::from(checked.settled) == figures.settled
            });
        let accepted = agrees && past.iter().all(|&weight| weight == 0);
        let written = records::write(&call.envelope, &call.set.places, call.set.m);
        assert_eq!(written.is_ok(), accepted, "{call:?}");
        reached.insert(accepted);
    }
    assert_eq!(reached.len(), 2);
}

/// An envelope that holds to this.
fn any_that(random: &mut Random, holds: impl Fn(&Enveloped) -> bool) -> Enveloped {
    loop {
        let enveloped = record_texts::any(random);
        if holds(&enveloped) {
            return enveloped;
        }
    }
}

/// An envelope that can have the fault.
fn written_with(random: &mut Random, fault: WritingFault) -> Enveloped {
    any_that(random, |any| fault.fits(any.rows.set.m))
}

fn answers(call: &FaultyCall) {
    let outcome = records::read(&call.rows, &call.text);
    let text = call.text.escape_ascii();
    assert_eq!(outcome, Err(call.refusal), "{text}, {:?}", call.rows);
}

#[test]
fn each_fault_has_its_number() {
    let mut random = Random::new(35);
    let list = record_calls::all_faults();
    assert_eq!(list.len(), 11 + 5 + 2 + 20 + 18);
    for fault in list {
        let mut lines = BTreeSet::new();
        for _ in 0..50 {
            let enveloped = any_that(&mut random, |any| record_calls::fits(any, fault));
            let call = record_calls::one_fault(&mut random, &enveloped, fault);
            assert_eq!(call.refusal.number, fault.number(), "{fault:?}");
            answers(&call);
            lines.insert(call.refusal.line);
        }
        let has_line = matches!(fault, Fault::Form(_));
        assert_eq!(lines.contains(&0), !has_line, "{fault:?}");
    }
}

/// Every pair of numbers is met, 11 and 12 in both orders of their lines.
#[test]
fn the_first_of_two_faults_is_given() {
    let mut random = Random::new(36);
    let mut pairs: BTreeMap<[u32; 2], u32> = BTreeMap::new();
    for _ in 0..10_000 {
        let enveloped = record_texts::any(&mut random);
        let faults = record_calls::two_faults(&mut random, &enveloped);
        answers(&faults.call);
        let first = ORDER.iter().find(|number| faults.numbers.contains(number));
        assert_eq!(Some(&faults.call.refusal.number), first);
        *pairs.entry(faults.numbers).or_default() += 1;
    }
    assert_eq!(pairs.len(), 6 + 1 + 1, "{pairs:?}");
    assert!(pairs.values().all(|&count| count > 100), "{pairs:?}");
}

#[test]
fn records_of_as_many_bytes_as_the_limit() {
    let mut random = Random::new(37);
    let mut lines = BTreeSet::new();
    for _ in 0..100 {
        let enveloped = record_texts::any(&mut random);
        let call = record_calls::at_the_limit(&mut random, &enveloped);
        answers(&call);
        lines.insert(call.refusal.line);
    }
    assert!(
        lines.is_superset(&BTreeSet::from([1, 2, 3, 4])),
        "{lines:?}"
    );
}

fn is_refused(faulty: &FaultyWriting) {
    let WritingCall { envelope, set } = &faulty.call;
    let outcome = records::write(envelope, &set.places, set.m);
    assert_eq!(outcome, Err(faulty.refusal), "{faulty:?}");
}

#[test]
fn each_fault_of_an_envelope_has_its_number() {
    let mut random = Random::new(38);
    let list = writing_faults::all_faults();
    assert_eq!(list.len(), 21 + 7 + 3 + 9);
    for fault in list {
        for _ in 0..50 {
            let enveloped = written_with(&mut random, fault);
            is_refused(&writing_faults::one_fault(&mut random, &enveloped, fault));
        }
    }
}

#[test]
fn limits_come_before_agreement() {
    let mut random = Random::new(39);
    for _ in 0..2_000 {
        let enveloped = record_texts::any(&mut random);
        let faulty = writing_faults::two_faults(&mut random, &enveloped);
        assert_eq!(faulty.refusal.number, 8);
        is_refused(&faulty);
    }
}

/// Damage reaches every answer of a record, and leaves some records accepted.
#[test]
fn damage_reaches_every_answer() {
    let mut random = Random::new(40);
    let mut reached: BTreeMap<u32, u32> = BTreeMap::new();
    let mut kinds: BTreeMap<String, u32> = BTreeMap::new();
    for _ in 0..20_000 {
        let enveloped = record_texts::any(&mut random);
        let (text, damages) = record_damage::damaged(&mut random, &enveloped);
        let outcome = records::read(&enveloped.rows, &text);
        let number = outcome.map_or_else(|refusal| refusal.number, |_| 0);
        *reached.entry(number).or_default() += 1;
        for damage in damages {
            *kinds.entry(format!("{damage:?}")).or_default() += 1;
        }
    }
    assert!(reached.keys().copied().eq([0, 1, 11, 12]), "{reached:?}");
    assert!(reached.values().all(|&count| count >= 100), "{reached:?}");
    assert_eq!(kinds.len(), record_damage::damages().len());
    assert!(kinds.values().all(|&count| count >= 20), "{kinds:?}");
}

/// Refusal 13 comes last, for a centre or weights of one place fewer; a refusal changes nothing.
#[test]
fn lent_slices_of_a_reader() {
    let rows = known_records::rows();
    let read = |text: &str, places: usize, weights: usize| {
        let (mut centre, mut weights) = (vec![9; places], vec![9; weights]);
        let outcome = records::read_into(&rows, text.as_bytes(), &mut centre, &mut weights);
        (outcome.err(), centre, weights)
    };
    let short = Some(BUFFER_TOO_SHORT);
    assert_eq!(read(RECORD, 1, 3), (short, vec![9], vec![9; 3]));
    assert_eq!(read(RECORD, 2, 2), (short, vec![9; 2], vec![9; 2]));
    let weights = vec![0, 32_768, 32_768];
    assert_eq!(read(RECORD, 2, 3), (None, vec![196_608, 262_144], weights));
    let weights = vec![0, 32_768, 32_768, 9];
    assert_eq!(
        read(RECORD, 3, 4),
        (None, vec![196_608, 262_144, 9], weights)
    );
    let form = Some(Refusal {
        number: 11,
        line: 1,
    });
    assert_eq!(read("ENV,0", 0, 0), (form, vec![], vec![]));
}

/// Every length of the buffer: 13 below the record's, which fills its first places and no other.
#[test]
fn lent_buffers_of_a_writer() {
    let (envelope, rows) = (known_records::envelope(), known_records::rows());
    for length in 0..RECORD.len() + 3 {
        let mut buffer = vec![b'#'; length];
        let outcome = records::write_into(&envelope, &rows.set.places, 3, &mut buffer);
        if length < RECORD.len() {
            assert_eq!(outcome, Err(BUFFER_TOO_SHORT));
            assert_eq!(buffer, vec![b'#'; length]);
        } else {
            assert_eq!(outcome, Ok(RECORD.len()));
            let (record, rest) = buffer.split_at(RECORD.len());
            assert_eq!(record, RECORD.as_bytes());
            assert!(rest.iter().all(|&byte| byte == b'#'));
        }
    }
}

/// Some changes are accepted: those of the moves, and of weights between equal rows.
#[test]
fn sweeps_reach_every_answer() {
    let mut counts: BTreeMap<u32, u32> = BTreeMap::new();
    for (rows, text) in known_records::small() {
        let text = text.as_bytes();
        assert!(
            records::read(&rows, text).is_ok(),
            "{}",
            text.escape_ascii()
        );
        sweeps::one_byte_changes(text, |changed| count(&mut counts, &rows, changed));
        sweeps::line_changes(text, |changed| count(&mut counts, &rows, changed));
        let numbers = known_records::numbers_for;
        sweeps::number_changes(text, numbers, |changed| count(&mut counts, &rows, changed));
    }
    assert!(counts.keys().copied().eq([0, 1, 11, 12]), "{counts:?}");
    assert!(counts.values().all(|&count| count > 2), "{counts:?}");
}

fn count(counts: &mut BTreeMap<u32, u32>, rows: &TypedRows, text: &[u8]) {
    let outcome = records::read(rows, text);
    let number = outcome.map_or_else(|refusal| refusal.number, |_| 0);
    *counts.entry(number).or_default() += 1;
}
