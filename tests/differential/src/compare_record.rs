//! One record read, and one envelope written, through the product and through the outside
//! implementation.

use crate::lent::{self, Followed, Guarded, Room};
use crate::product::{
    BEHIND_PLACES, BEHIND_TYPES, LentFigures, compare_written, given, number, owned, refused,
};
use outside::random::Random;
use outside::records::{self, Envelope, TypedRows};
use outside::rules::{CHANNEL_LIMIT, ROW_LIMIT, Refusal};

/// What follows the lent slices in memory. A product that read past an end would take it for the
/// text's byte 10 and one more line, or for a weight past m.
const BEHIND_TEXT: &[u8] = b"\nW,256,1\n";
const BEHIND_WEIGHTS: [u32; 9] = [1; 9];

/// Rows and types lent to be read.
#[derive(Clone, Debug, PartialEq, Eq)]
struct LentRows {
    places: Followed<i32>,
    types: Followed<u8>,
}

/// A record in memory and the rows that it is read against, with what both must say of it.
#[derive(Clone, Debug)]
pub struct Record {
    rows: TypedRows,
    lent: LentRows,
    text: Followed<u8>,
    /// The answer by the rules, before any slice is too short.
    pub outcome: Result<Envelope, Refusal>,
}

/// The slices lent to be written by a reader.
#[derive(Clone, Debug, PartialEq, Eq)]
struct LentEnvelope {
    centre: Guarded<i64>,
    weights: Guarded<u32>,
}

impl Record {
    pub fn new(rows: &TypedRows, text: &[u8]) -> Record {
        Record {
            lent: LentRows {
                places: Followed::new(&rows.set.places, &BEHIND_PLACES),
                types: Followed::new(&rows.types, &BEHIND_TYPES),
            },
            text: Followed::new(text, BEHIND_TEXT),
            outcome: records::read(rows, text),
            rows: rows.clone(),
        }
    }

    /// Slices for the envelope of these rows; of those outside the limits, for no more than these.
    fn room(&self, random: &mut Random, (centre, weights): (Room, Room)) -> LentEnvelope {
        let n = self.rows.set.n.min(CHANNEL_LIMIT);
        let m = self.rows.set.m.min(ROW_LIMIT);
        LentEnvelope {
            centre: Guarded::new(centre.places(n, CHANNEL_LIMIT), || random.number() as i64),
            weights: Guarded::new(weights.places(m, ROW_LIMIT), || random.number() as u32),
        }
    }

    /// Reads the record through both with these rooms, and stops the tests where they differ in any
    /// figure or place. Gives the number on which both agree.
    pub fn compare(&self, random: &mut Random, rooms: (Room, Room)) -> u32 {
        let room = self.room(random, rooms);
        let (mut written, mut owed) = (room.clone(), room);
        let (rows, text) = (self.lent.clone(), self.text.clone());
        let answer = cundarivo::read_record_into(
            rows.places.slice(),
            self.rows.set.m,
            self.rows.set.n,
            rows.types.slice(),
            text.slice(),
            written.centre.lent(),
            written.weights.lent(),
        );
        let expected = self.outcome.clone().and_then(|envelope| {
            records::hand_out(&envelope, owed.centre.lent(), owed.weights.lent())?;
            Ok(envelope)
        });
        let shown = || format!("{rooms:?}, {}", self.shown());
        assert_eq!(answer, in_numbers(&expected), "{}", shown());
        assert_eq!(written, owed, "places, {}", shown());
        let unchanged = rows == self.lent && text == self.text;
        assert!(unchanged, "a place lent to be read, {}", shown());
        answer.number
    }

    /// The same through the wrapper, which answers with an envelope of its own.
    pub fn compare_wrapper(&self) {
        let (places, types) = (self.lent.places.slice(), self.lent.types.slice());
        let (m, n) = (self.rows.set.m, self.rows.set.n);
        let read = cundarivo::read_record(places, m, n, types, self.text.slice());
        let expected = match &self.outcome {
            Ok(envelope) => Ok(owned_envelope(envelope).expect("one of the two endings")),
            Err(refusal) => Err(refused(*refusal)),
        };
        assert_eq!(read, expected, "wrapper, {}", self.shown());
    }

    /// The beginning of the text and the rows, for messages.
    pub fn shown(&self) -> String {
        format!("{}, {:?}", lent::shown(self.text.slice()), self.rows)
    }
}

fn in_numbers(outcome: &Result<Envelope, Refusal>) -> cundarivo::EnvelopeAnswer {
    let mut answer = cundarivo::EnvelopeAnswer {
        number: 0,
        line: 0,
        settled: 0,
        moves: 0,
        scaled_squared_radius: 0,
        scaled_lower_bound: 0,
    };
    match outcome {
        Ok(Envelope { figures, .. }) => {
            answer.settled = figures.settled;
            answer.moves = figures.moves;
            answer.scaled_squared_radius = figures.scaled_squared_radius;
            answer.scaled_lower_bound = figures.scaled_lower_bound;
        }
        Err(refusal) => (answer.number, answer.line) = (refusal.number, refusal.line),
    }
    answer
}

/// An envelope as the wrapper takes and gives it.
fn owned_envelope(envelope: &Envelope) -> Option<cundarivo::Envelope> {
    Some(cundarivo::Envelope {
        figures: owned(&envelope.figures)?,
        weights: envelope.weights.clone(),
    })
}

/// The slices of an envelope lent to be read.
#[derive(Clone, Debug, PartialEq, Eq)]
struct LentWriting {
    figures: LentFigures,
    weights: Followed<u32>,
    places: Followed<i32>,
}

/// An envelope in memory and the rows that it is written against, with what both must say of it.
#[derive(Clone, Debug)]
pub struct Writing {
    envelope: Envelope,
    m: usize,
    lent: LentWriting,
    /// The answer by the rules, before any buffer is too short.
    pub outcome: Result<Vec<u8>, Refusal>,
}

impl Writing {
    pub fn new(envelope: &Envelope, places: &[i32], m: usize) -> Writing {
        Writing {
            lent: LentWriting {
                figures: LentFigures::new(&envelope.figures),
                weights: Followed::new(&envelope.weights, &BEHIND_WEIGHTS),
                places: Followed::new(places, &BEHIND_PLACES),
            },
            outcome: records::write(envelope, places, m),
            envelope: envelope.clone(),
            m,
        }
    }

    /// The bytes of the record, of a refused envelope none.
    pub fn length(&self) -> usize {
        self.outcome.as_ref().map_or(0, Vec::len)
    }

    /// Writes the record through both into a buffer of this length, and stops the tests where they
    /// differ in any number or place. Gives the number on which both agree.
    pub fn compare(&self, random: &mut Random, length: usize) -> u32 {
        let lent = self.lent.clone();
        let write = |buffer: &mut [u8]| {
            cundarivo::write_record_into(
                given(&self.envelope.figures),
                lent.figures.types.slice(),
                lent.figures.centre.slice(),
                lent.weights.slice(),
                lent.places.slice(),
                self.m,
                buffer,
            )
        };
        let outcome = self.outcome.as_deref().map_err(|refusal| *refusal);
        let answer = compare_written(random, length, outcome, write, || self.shown());
        let unchanged = lent == self.lent;
        assert!(unchanged, "a place lent to be read, {}", self.shown());
        number(answer)
    }

    /// The same through the wrapper, which answers with a text of its own.
    pub fn compare_wrapper(&self) {
        let Some(envelope) = owned_envelope(&self.envelope) else {
            return;
        };
        let written = cundarivo::write_record(&envelope, self.lent.places.slice(), self.m);
        let expected = self.outcome.clone().map_err(refused);
        assert_eq!(written, expected, "wrapper, {}", self.shown());
    }

    /// The envelope and the rows, for messages.
    pub fn shown(&self) -> String {
        let (places, m) = (self.lent.places.slice(), self.m);
        format!("{:?}, {m} rows {places:?}", self.envelope)
    }
}
