//! The outside implementation of reference texts held to answers that were written down or are
//! known from how a text was made.

use outside::damage;
use outside::faults::{self, ROW_FAULTS};
use outside::known_texts;
use outside::random::Random;
use outside::reference::{self, Part, TABLE_TOO_SHORT};
use outside::rules::{BUFFER_TOO_SHORT, Refusal};
use outside::sweeps;
use outside::texts::{self, Draft};
use std::collections::{BTreeMap, BTreeSet};

#[test]
fn known_texts_hold() {
    let list = known_texts::all();
    assert!(!list.is_empty());
    for known in list {
        let outcome = reference::read(&known.text);
        assert_eq!(outcome, known.outcome, "{}", known.name);
    }
}

#[test]
fn values_just_outside_their_ranges() {
    let list = known_texts::just_outside();
    assert_eq!(list.len(), 24);
    for (tag, value) in list {
        let text = format!("REF,1,{tag}\nA,{value}\n");
        let refusal = Refusal { number: 4, line: 2 };
        assert_eq!(reference::read(text.as_bytes()), Err(refusal), "{text}");
    }
}

/// Types, values and labels of a text are those that it was made of.
#[test]
fn whole_texts_read_back() {
    let mut random = Random::new(11);
    for _ in 0..5_000 {
        let (m, n) = texts::size(&mut random);
        let draft = Draft::new(&mut random, m, n);
        let text = draft.bytes();
        let read = reference::read(&text).expect("a whole text");
        let codes: Vec<u8> = draft.types.iter().map(|channel| channel.code).collect();
        assert_eq!(read.types, codes);
        assert_eq!(read.table(), draft.table);
        let label = |part: Part| &text[part.start..part.start + part.length];
        let labels: Vec<&[u8]> = read.rows.iter().map(|row| label(row.label)).collect();
        let made: Vec<&[u8]> = draft.rows.iter().map(|row| &row[0][..]).collect();
        assert_eq!(labels, made);
    }
}

#[test]
fn the_first_of_two_faults_is_given() {
    let mut random = Random::new(12);
    let mut numbers = BTreeSet::new();
    for _ in 0..5_000 {
        for faulty in faults::two_faults(&mut random) {
            let read = reference::read(&faulty.text);
            assert_eq!(read, Err(faulty.refusal), "{:?}", faulty.text);
            numbers.insert(faulty.refusal.number);
        }
    }
    assert_eq!(numbers, BTreeSet::from([2, 3, 4, 5, 6]));
}

/// The faults of a row are in groups by number, each as likely as the others.
#[test]
fn each_number_is_as_likely() {
    let mut random = Random::new(15);
    let mut numbers: BTreeMap<u32, u32> = BTreeMap::new();
    for _ in 0..30_000 {
        let number = faults::row_fault(&mut random).number();
        *numbers.entry(number).or_default() += 1;
    }
    assert!(numbers.keys().copied().eq(3..=5));
    assert!(
        numbers
            .values()
            .all(|count| (9_500..10_500).contains(count))
    );
}

/// Each fault of a row by itself, in the second row.
#[test]
fn each_row_fault_has_its_number() {
    let mut random = Random::new(13);
    for fault in ROW_FAULTS {
        for n in 1..=8 {
            let mut draft = Draft::new(&mut random, 3, n);
            let used = draft.rows[0][0].clone();
            faults::put(&mut random, &mut draft.rows[1], fault, &draft.types, &used);
            let refusal = Refusal {
                number: fault.number(),
                line: 3,
            };
            let read = reference::read(&draft.bytes());
            assert_eq!(read, Err(refusal), "{fault:?}");
        }
    }
}

/// Damage reaches every refusal of a text, and leaves some texts accepted.
#[test]
fn damage_reaches_every_refusal() {
    let mut random = Random::new(14);
    let mut reached: BTreeMap<u32, u32> = BTreeMap::new();
    for _ in 0..20_000 {
        let (m, n) = texts::size(&mut random);
        let draft = Draft::new(&mut random, m, n);
        let mut text = draft.bytes();
        let kind = damage::kind(&mut random);
        damage::damage(&mut random, &mut text, kind, &draft.types);
        let number = reference::read(&text).map_or_else(|refusal| refusal.number, |_| 0);
        *reached.entry(number).or_default() += 1;
    }
    assert!(reached.keys().copied().eq(0..=6), "{reached:?}");
    assert!(reached.values().all(|&count| count >= 100), "{reached:?}");
}

#[test]
fn labels_of_rows() {
    let text = b"REF,2,TOC,CND\nA,0,0\nB-12,6,0\n";
    let read = reference::read(text);
    let part = |start, length| Part { start, length };
    assert_eq!(reference::label(&read, 1), part(14, 1));
    assert_eq!(reference::label(&read, 2), part(20, 4));
    for row in [0, 3, usize::MAX] {
        assert_eq!(reference::label(&read, row), part(0, 0));
    }
    let refused = reference::read(b"REF,2,TOC,CND\nA,0,0\nA,6,0\n");
    for row in [0, 1, 2, 3] {
        assert_eq!(reference::label(&refused, row), part(0, 0));
    }
}

/// Document 01: a table of 5 places, 3 rows of 2. Refusal 7 comes before 13.
#[test]
fn lent_slices() {
    let text = b"REF,2,TOC,CND\nA,0,0\nB,6,0\nC,0,8\n";
    let read = |places: usize, codes: usize| {
        let mut table = vec![9; places];
        let mut types = vec![9; codes];
        let outcome = reference::read_into(text, &mut table, &mut types);
        (outcome.err(), table, types)
    };
    assert_eq!(read(5, 2), (Some(TABLE_TOO_SHORT), vec![9; 5], vec![9; 2]));
    assert_eq!(read(5, 1), (Some(TABLE_TOO_SHORT), vec![9; 5], vec![9; 1]));
    assert_eq!(read(6, 1), (Some(BUFFER_TOO_SHORT), vec![9; 6], vec![9; 1]));
    assert_eq!(read(6, 2), (None, vec![0, 0, 6, 0, 0, 8], vec![1, 4]));
    assert_eq!(read(7, 3), (None, vec![0, 0, 6, 0, 0, 8, 9], vec![1, 4, 9]));
}

/// Eight of the tags are known; of the small texts some changes are accepted and most refused.
#[test]
fn sweeps_reach_both_answers() {
    let (mut accepted, mut refused) = (0, 0);
    let mut count = |text: &[u8]| match reference::read(text) {
        Ok(_) => accepted += 1,
        Err(_) => refused += 1,
    };
    sweeps::short_tags(&mut count);
    assert_eq!(
        (accepted, refused),
        (8, 1 + 26 + 26 * 26 + 26 * 26 * 26 - 8)
    );
    let mut reached = BTreeSet::new();
    for text in sweeps::SMALL_TEXTS {
        assert!(reference::read(text.as_bytes()).is_ok());
        sweeps::one_byte_changes(text.as_bytes(), |changed| {
            reached.insert(reference::read(changed).map_or_else(|refusal| refusal.number, |_| 0));
        });
    }
    assert!(reached.into_iter().eq(0..=6));
}

/// `<v` reads as the whole part of v/2, which is within the range, in a row of every type.
#[test]
fn every_value_below_detection_reads_as_half() {
    let mut read = 0;
    sweeps::rows_below_detection(|channel, numbers, text| {
        let table = reference::read(text).expect("a text in range").table();
        assert_eq!(table.len(), numbers.len());
        for (&number, reads) in numbers.iter().zip(table) {
            assert!((2 * reads..2 * reads + 2).contains(&number), "<{number}");
            assert!((channel.low..=channel.high).contains(&reads), "<{number}");
            read += 1;
        }
    });
    assert_eq!(read, sweeps::BELOW_DETECTION);
}

/// The numbers within the range of each type, and those from 1 to its high after `<`.
#[test]
fn numbers_within_the_ranges() {
    let mut accepted = 0;
    sweeps::near_numbers(|text| accepted += i32::from(reference::read(text).is_ok()));
    let plain = 2_001 + 4 * 4_001 + 1_701 + 1_401 + 4_001;
    let below = 2_000 + 4 * 4_000 + 1_500 + 1_400 + 2_000;
    assert_eq!(accepted, plain + below);
}
