//! One reference text written through the product and through the outside implementation.

use crate::lent::{self, Followed};
use crate::product::{BEHIND_PLACES, BEHIND_TYPES, compare_written, refused};
use outside::random::Random;
use outside::reference_writing::{self, LabelledRows, LentLabels};
use outside::rules::{CHANNEL_LIMIT, ROW_LIMIT, Refusal};

/// What follows the bytes of the labels in memory: a product that read past their end would take it for
/// labels in form.
const BEHIND_LABELS: &[u8] = b"BEHIND-1-2-3-4-5";
/// How many ends follow the lent ones.
const ENDS_BEHIND: usize = 4;

/// The slices lent to be read.
#[derive(Clone, Debug, PartialEq, Eq)]
struct LentTable {
    places: Followed<i32>,
    codes: Followed<u8>,
    labels: Followed<u8>,
    ends: Followed<usize>,
}

impl LentTable {
    /// Behind the ends lies that of the last label, and those of the bytes behind it.
    fn new(table: &LabelledRows) -> LentTable {
        let LentLabels { bytes, ends } = &table.labels;
        let ends_behind: Vec<usize> = (0..ENDS_BEHIND).map(|more| bytes.len() + more).collect();
        LentTable {
            places: Followed::new(&table.rows.set.places, &BEHIND_PLACES),
            codes: Followed::new(&table.rows.types, &BEHIND_TYPES),
            labels: Followed::new(bytes, BEHIND_LABELS),
            ends: Followed::new(ends, &ends_behind),
        }
    }
}

/// Labelled rows in memory, with what both must say of them.
#[derive(Clone, Debug)]
pub struct ReferenceWriting {
    table: LabelledRows,
    lent: LentTable,
    /// The answer by the rules, before any buffer is too short.
    pub outcome: Result<Vec<u8>, Refusal>,
}

impl ReferenceWriting {
    pub fn new(table: &LabelledRows) -> ReferenceWriting {
        ReferenceWriting {
            lent: LentTable::new(table),
            outcome: reference_writing::write(table),
            table: table.clone(),
        }
    }

    /// The bytes of the text, of refused rows none.
    pub fn length(&self) -> usize {
        self.outcome.as_ref().map_or(0, Vec::len)
    }

    /// Writes the text through both into a buffer of this length, and stops the tests where they differ
    /// in any number or place. Gives the answer on which both agree.
    pub fn compare(&self, random: &mut Random, length: usize) -> Result<usize, Refusal> {
        let lent = self.lent.clone();
        let write = |buffer: &mut [u8]| {
            cundarivo::write_reference_into(
                lent.places.slice(),
                self.table.rows.set.m,
                self.table.rows.set.n,
                lent.codes.slice(),
                lent.labels.slice(),
                lent.ends.slice(),
                buffer,
            )
        };
        let outcome = self.outcome.as_deref().map_err(|refusal| *refusal);
        let answer = compare_written(random, length, outcome, write, || self.shown());
        let unchanged = lent == self.lent;
        assert!(unchanged, "a place lent to be read, {}", self.shown());
        answer
    }

    /// The same through the wrapper, which takes labels as slices and answers with a text of its own.
    /// Gives whether there are such labels: those whose ends do not fall and end with the bytes.
    pub fn compare_wrapper(&self) -> bool {
        let Some(labels) = self.table.labels.parts() else {
            return false;
        };
        let (m, n) = (self.table.rows.set.m, self.table.rows.set.n);
        let (places, codes) = (self.lent.places.slice(), self.lent.codes.slice());
        let written = cundarivo::write_reference(places, m, n, codes, &labels);
        let expected = self.outcome.clone().map_err(refused);
        assert_eq!(written, expected, "wrapper, {}", self.shown());
        true
    }

    /// What the product writes, read by the product: the table, the types and each label are those that
    /// were lent, place by place.
    pub fn compare_round_trip(&self) {
        let set = &self.table.rows.set;
        let (m, n) = (set.m, set.n);
        let labels = self.table.labels.parts().expect("labels of accepted rows");
        let (places, codes) = (&set.places, &self.table.rows.types);
        let text = cundarivo::write_reference(places, m, n, codes, &labels);
        let text = text.expect("accepted rows");
        let (mut table, mut types) = ([i32::MIN; ROW_LIMIT * CHANNEL_LIMIT], [0; CHANNEL_LIMIT]);
        let read = cundarivo::read_reference(&text, &mut table, &mut types);
        let counts = read.map(|counts| (counts.m, counts.n));
        assert_eq!(counts, Ok((m, n)), "{}", self.shown());
        assert_eq!(table[..m * n], places[..m * n], "{}", self.shown());
        assert_eq!(types[..n], codes[..n], "{}", self.shown());
        for (row, &label) in (1..).zip(&labels) {
            assert_eq!(cundarivo::label(&text, row), label, "{}", self.shown());
        }
        assert_eq!(cundarivo::label(&text, m + 1), b"", "{}", self.shown());
    }

    /// The rows and the beginning of the text, for messages.
    pub fn shown(&self) -> String {
        let text = self.outcome.as_deref().unwrap_or_default();
        format!("{:?}, owed {}", self.table, lent::shown(text))
    }
}
