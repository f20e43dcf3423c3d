//! The outside implementation of the writer of reference texts held to answers that were written down
//! or are known from how a call was made.

use outside::damage;
use outside::known_reference_writings::{self, KnownReferenceWriting};
use outside::random::Random;
use outside::reference::{self, CHANNEL_TYPES, Reference};
use outside::reference_writing::{
    self, HEADING_BYTES, LabelledRows, LentLabels, ROW_BYTES, write, write_into,
};
use outside::reference_writing_faults::{self, FaultyWriting, TableDraft};
use outside::rules::{BUFFER_TOO_SHORT, CHANNEL_LIMIT, OUTSIDE_LIMITS, ROW_LIMIT, Refusal};
use outside::texts::{self, Draft};
use std::collections::{BTreeMap, BTreeSet};

#[test]
fn known_reference_writings_hold() {
    let list = known_reference_writings::all();
    assert!(list.len() >= 150, "{}", list.len());
    for known in list {
        let KnownReferenceWriting {
            name,
            table,
            places,
            outcome,
        } = known;
        let mut buffer = vec![b'#'; places];
        let mut owed = buffer.clone();
        if let Ok(text) = &outcome {
            owed[..text.len()].copy_from_slice(text);
        }
        let length = outcome.map(|text| text.len());
        assert_eq!(write_into(&table, &mut buffer), length, "{name}");
        assert!(buffer == owed, "{name}");
    }
}

/// A table of any size within the rules, lent with more places than count.
fn whole(random: &mut Random) -> (TableDraft, LabelledRows) {
    let (m, n) = texts::size(random);
    let draft = TableDraft::new(random, m, n);
    let mut table = draft.lent();
    reference_writing_faults::lend_longer(random, &mut table, &[]);
    (draft, table)
}

/// What is written reads as the table with these types and labels.
#[test]
fn written_texts_read_back() {
    let random = &mut Random::new(91);
    for _ in 0..5_000 {
        let (draft, table) = whole(random);
        let text = write(&table).expect("a table within the rules");
        let read = reference::read(&text).expect("a text within the rules");
        assert_eq!(LabelledRows::read(&read, &text), draft.lent());
        let rows = draft.labels.len();
        assert!(text.len() <= HEADING_BYTES + ROW_BYTES * rows);
        assert!(!text.contains(&b'<'));
    }
}

/// A text that is read is written as itself where it has no `<`, else as one that reads the same.
#[test]
fn accepted_texts_are_written_as_they_were_read() {
    let random = &mut Random::new(92);
    let (mut own, mut other) = (0, 0);
    for _ in 0..20_000 {
        let (m, n) = texts::size(random);
        let draft = Draft::new(random, m, n);
        let mut text = draft.bytes();
        if random.once_in(2) {
            let kind = damage::kind(random);
            damage::damage(random, &mut text, kind, &draft.types);
        }
        let Ok(read) = reference::read(&text) else {
            continue;
        };
        let table = LabelledRows::read(&read, &text);
        let written = write(&table).expect("an accepted text");
        assert_eq!(written == text, !text.contains(&b'<'));
        let again = reference::read(&written).expect("a written text");
        assert_eq!(LabelledRows::read(&again, &written), table);
        if written == text {
            own += 1;
        } else {
            other += 1;
        }
    }
    assert!(own > 1_000 && other > 1_000, "{own}, {other}");
}

/// The answer by each test of the rules, one after the other, without printing or reading a line.
fn by_the_tests(table: &LabelledRows) -> Option<Refusal> {
    if !within_limits(table) {
        return Some(OUTSIDE_LIMITS);
    }
    let refused = |row: usize| {
        let number = number_of_row(table, row)?;
        let line = row as u32 + 2;
        Some(Refusal { number, line })
    };
    (0..table.rows.set.m).find_map(refused)
}

fn within_limits(table: &LabelledRows) -> bool {
    let LabelledRows { rows, labels } = table;
    let (m, n) = (rows.set.m, rows.set.n);
    let within = |place: &i32| (-4_000..=4_000).contains(place);
    let (places, codes, ends) = (&rows.set.places, &rows.types, &labels.ends);
    (1..=CHANNEL_LIMIT).contains(&n)
        && (1..=ROW_LIMIT).contains(&m)
        && places.len() >= m * n
        && places[..m * n].iter().all(within)
        && codes.len() >= n
        && codes[..n].iter().all(|code| (1..=8).contains(code))
        && ends.len() == m
        && ends.is_sorted()
        && ends[m - 1] == labels.bytes.len()
}

/// The number that a row, counted from 0, is refused by.
fn number_of_row(table: &LabelledRows, row: usize) -> Option<u32> {
    let LabelledRows { rows, labels } = table;
    let LentLabels { bytes, ends } = labels;
    let label = |row: usize| &bytes[if row == 0 { 0 } else { ends[row - 1] }..ends[row]];
    let allowed = |byte: &u8| b"ABCDEFGHIJKLMNOPQRSTUVWXYZ0123456789-".contains(byte);
    let outside_range = |channel: usize| {
        let value = rows.set.places[row * rows.set.n + channel];
        let own = CHANNEL_TYPES[usize::from(rows.types[channel]) - 1];
        value < own.low || value > own.high
    };
    if !(1..=12).contains(&label(row).len()) || !label(row).iter().all(allowed) {
        Some(3)
    } else if (0..rows.set.n).any(outside_range) {
        Some(4)
    } else {
        let repeated = (0..row).any(|earlier| label(earlier) == label(row));
        repeated.then_some(5)
    }
}

/// The refusal is the one known from how a call was made, and the one that the tests give.
fn is_refused(faulty: &FaultyWriting) {
    let FaultyWriting {
        table,
        places,
        refusal,
    } = faulty;
    let mut buffer = vec![b'#'; *places];
    assert_eq!(write_into(table, &mut buffer), Err(*refusal), "{faulty:?}");
    assert!(buffer.iter().all(|&byte| byte == b'#'));
    let tested = by_the_tests(table).unwrap_or(BUFFER_TOO_SHORT);
    assert_eq!(tested, *refusal, "{faulty:?}");
}

#[test]
fn each_fault_has_its_number() {
    let random = &mut Random::new(93);
    let list = reference_writing_faults::all_faults();
    assert_eq!(list.len(), 23 + 13 + 3 + 3 + 2);
    for fault in list {
        let mut lines = BTreeSet::new();
        for _ in 0..200 {
            let (draft, _) = whole(random);
            if fault.fits(draft.labels.len()) {
                let faulty = reference_writing_faults::one_fault(random, &draft, fault);
                assert_eq!(faulty.refusal.number, fault.number(), "{fault:?}");
                is_refused(&faulty);
                lines.insert(faulty.refusal.line);
            }
        }
        assert_eq!(lines.contains(&0), !fault.is_of_row(), "{fault:?}");
        assert!(lines.len() >= if fault.is_of_row() { 4 } else { 1 });
    }
}

/// Every two faults, on one row and on two in both orders.
#[test]
fn the_first_of_two_faults_is_given() {
    let random = &mut Random::new(94);
    let mut numbers: BTreeMap<u32, u32> = BTreeMap::new();
    for (faults, rows) in reference_writing_faults::pairs() {
        for _ in 0..12 {
            let (m, n) = texts::size(random);
            let draft = TableDraft::new(random, m.max(3), n);
            let faulty = reference_writing_faults::two_faults(random, &draft, faults, rows);
            is_refused(&faulty);
            *numbers.entry(faulty.refusal.number).or_default() += 1;
        }
    }
    assert!(numbers.keys().copied().eq([3, 4, 5, 8]), "{numbers:?}");
    assert!(numbers.values().all(|&count| count > 300), "{numbers:?}");
}

/// Rows within the limits of coordinates, most of them outside some range: what is accepted is what the
/// tests let pass.
#[test]
fn writing_accepts_what_the_tests_let_pass() {
    let random = &mut Random::new(95);
    let mut reached: BTreeMap<u32, u32> = BTreeMap::new();
    for _ in 0..30_000 {
        let m = 1 + random.index(4);
        let n = 1 + random.index(CHANNEL_LIMIT);
        let mut draft = TableDraft::new(random, m, n);
        for _ in 0..random.index(4) {
            let (one, other) = (random.index(m), random.index(m));
            match random.below(3) {
                0 => draft.labels[one] = draft.labels[other].clone(),
                1 => drop(draft.labels[one].pop()),
                _ => {
                    let place = random.index(m * n);
                    draft.places[place] = random.between(-4_001, 4_001);
                }
            }
        }
        let table = draft.lent();
        let outcome = reference_writing::write(&table);
        assert_eq!(outcome.as_ref().err().copied(), by_the_tests(&table));
        let number = outcome.map_or_else(|refusal| refusal.number, |_| 0);
        *reached.entry(number).or_default() += 1;
    }
    let mut numbers = reached.keys().copied();
    assert!(numbers.by_ref().take(4).eq([0, 3, 4, 5]), "{reached:?}");
}

/// Each byte in each place of a label.
#[test]
fn every_byte_of_a_label() {
    let mut accepted = 0;
    for byte in 0..=u8::MAX {
        for place in 0..12 {
            let mut label = *b"ABCDEFGHIJKL";
            label[place] = byte;
            let mut table = known_reference_writings::document();
            table.labels = LentLabels::of(&[&b"A"[..], &label, b"C"]);
            let outcome = write(&table);
            let refusal = Refusal { number: 3, line: 3 };
            assert_eq!(outcome.is_ok(), by_the_tests(&table).is_none());
            assert_eq!(outcome.clone().err().unwrap_or(refusal), refusal);
            accepted += u32::from(outcome.is_ok());
        }
    }
    assert_eq!(accepted, 37 * 12);
}

/// Every length of the buffer: 13 below the text's, which fills its first places and no other.
#[test]
fn lent_buffers() {
    let table = known_reference_writings::document();
    let text = write(&table).expect("document 01's rows");
    for length in 0..text.len() + 3 {
        let mut buffer = vec![b'#'; length];
        let outcome = write_into(&table, &mut buffer);
        if length < text.len() {
            assert_eq!(outcome, Err(BUFFER_TOO_SHORT));
            assert_eq!(buffer, vec![b'#'; length]);
        } else {
            assert_eq!(outcome, Ok(text.len()));
            let (written, rest) = buffer.split_at(text.len());
            assert_eq!(written, text);
            assert!(rest.iter().all(|&byte| byte == b'#'));
        }
    }
}

/// The rows of a text that was read are those of the text.
#[test]
fn rows_of_a_text() {
    let text = b"REF,2,TOC,CND\nA,0,<5\nBC,6,0\n";
    let read: Reference = reference::read(text).expect("a text within the rules");
    let table = LabelledRows::read(&read, text);
    assert_eq!(table.rows.set.places, [0, 2, 6, 0]);
    assert_eq!((table.rows.set.m, table.rows.set.n), (2, 2));
    assert_eq!(table.rows.types, [1, 4]);
    assert_eq!(table.labels.bytes, b"ABC");
    assert_eq!(table.labels.ends, [1, 3]);
}
