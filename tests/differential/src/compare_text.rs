//! One reference text through the product and through the outside implementation.

use crate::lent::{self, Guarded, Room};
use outside::random::Random;
use outside::reference::{self, Part, Reference, TABLE_LIMIT};
use outside::rules::{CHANNEL_LIMIT, Refusal};

/// What follows a text in memory: a product that read past the end would take it for the text's.
const BEHIND: &[u8] = b"1\nB,1\n\n,1,1,1,1,1,1,1\nC,1\n";

/// The slices lent to be written.
#[derive(Clone, Debug, PartialEq, Eq)]
pub struct Lent {
    table: Guarded<i32>,
    types: Guarded<u8>,
}

impl Lent {
    /// Slices for a text of m rows and n channels.
    fn new(random: &mut Random, (m, n): (usize, usize), (table, types): (Room, Room)) -> Lent {
        let places = table.places(m * n, TABLE_LIMIT);
        let codes = types.places(n, CHANNEL_LIMIT);
        Lent {
            table: Guarded::new(places, || random.number() as i32),
            types: Guarded::new(codes, || random.number() as u8),
        }
    }
}

/// A text in memory, with what both must say of it.
pub struct Text {
    /// The text, and what lies behind it.
    bytes: Vec<u8>,
    length: usize,
    /// The outcome by the rules, before any slice is too short.
    pub outcome: Result<Reference, Refusal>,
}

impl Text {
    pub fn new(text: &[u8]) -> Text {
        Text {
            bytes: [text, BEHIND].concat(),
            length: text.len(),
            outcome: reference::read(text),
        }
    }

    fn bytes(&self) -> &[u8] {
        &self.bytes[..self.length]
    }

    /// m and n, where accepted.
    fn counts(&self) -> Option<(usize, usize)> {
        let accepted = self.outcome.as_ref().ok()?;
        Some((accepted.rows.len(), accepted.types.len()))
    }

    /// Reads the text through both with these rooms, and stops the tests where they differ in any
    /// figure or place. Gives the number on which both agree. A refused text is lent slices of any
    /// length.
    pub fn compare_reading(&self, random: &mut Random, rooms: (Room, Room)) -> u32 {
        let any = (random.index(7), random.index(CHANNEL_LIMIT + 1));
        let lent = Lent::new(random, self.counts().unwrap_or(any), rooms);
        let (mut given, mut owed) = (lent.clone(), lent);
        let before = self.bytes.clone();
        let (table, types) = (given.table.lent(), given.types.lent());
        let answer = cundarivo::read_reference_into(self.bytes(), table, types);
        let (table, types) = (owed.table.lent(), owed.types.lent());
        let expected = reference::read_into(self.bytes(), table, types);
        let owed_answer = in_numbers(&expected);
        assert_eq!(answer, owed_answer, "{rooms:?}, {}", self.shown());
        assert_eq!(given, owed, "places, {rooms:?}, {}", self.shown());
        assert!(before == self.bytes, "the text changed, {}", self.shown());
        answer.number
    }

    /// The same through the wrapper that answers with a result.
    pub fn compare_wrapper(&self) {
        let mut table = [0; TABLE_LIMIT];
        let mut types = [0; CHANNEL_LIMIT];
        let counts = cundarivo::read_reference(self.bytes(), &mut table, &mut types);
        let given = counts
            .map(|counts| (counts.m, counts.n))
            .map_err(|refusal| (refusal.number, refusal.line));
        let owed = self.counts().ok_or_else(|| {
            let answer = in_numbers(&self.outcome);
            (answer.number, answer.line)
        });
        assert_eq!(given, owed, "wrapper, {}", self.shown());
    }

    /// Compares where the labels stand of all rows, and of rows that no text has; and one label as a
    /// part of the text. Gives how many were compared.
    pub fn compare_labels(&self, random: &mut Random) -> u64 {
        let rows = self.rows_to_compare();
        for &row in &rows {
            let Part { start, length } = reference::label(&self.outcome, row);
            let given = cundarivo::label_part(self.bytes(), row);
            let owed = cundarivo::LabelAnswer { start, length };
            assert_eq!(given, owed, "label of row {row}, {}", self.shown());
        }
        self.compare_label_part(random.pick(&rows));
        rows.len() as u64
    }

    fn rows_to_compare(&self) -> Vec<usize> {
        let (m, _) = self.counts().unwrap_or_default();
        let mut rows = vec![0, m + 1, usize::MAX];
        if m == 0 {
            rows.push(2);
        }
        rows.extend(1..=m);
        rows
    }

    fn compare_label_part(&self, row: usize) {
        let Part { start, length } = reference::label(&self.outcome, row);
        let owed = &self.bytes()[start..start + length];
        let given = cundarivo::label(self.bytes(), row);
        // The same bytes of memory, not only equal ones.
        let same = std::ptr::eq(given, owed);
        assert!(same, "part of row {row}, {}", self.shown());
    }

    /// The beginning of the text, for messages.
    pub fn shown(&self) -> String {
        lent::shown(self.bytes())
    }
}

fn in_numbers(outcome: &Result<Reference, Refusal>) -> cundarivo::ReferenceAnswer {
    let (number, line, m, n) = match outcome {
        Ok(accepted) => (0, 0, accepted.rows.len(), accepted.types.len()),
        Err(refusal) => (refusal.number, refusal.line, 0, 0),
    };
    cundarivo::ReferenceAnswer { number, line, m, n }
}
