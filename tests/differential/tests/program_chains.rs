//! The calls of the product in a chain, each fed with what the one before it gave: a reference text is
//! written anew and drawn, its record verified, its rows judged, its panel shown, its record read,
//! written again, altered and turned back, and the record of the text with 0 in the place of each value below
//! detection verified. CUNDARIVO_SEED and CUNDARIVO_CHAINS in the environment give another
//! seed and a larger number of chains.

use cundarivo::{Envelope, programs};
use differential::reached::Reached;
use differential::seeded::seeded;
use outside::drawn_as_0::in_each_place;
use outside::envelopes;
use outside::program_inputs;
use outside::random::Random;
use outside::reading_texts;
use outside::record_calls::{self, Fault, FaultyCall};
use outside::record_texts::Enveloped;
use outside::records::{self, TypedRows};
use outside::reference;
use outside::rules::{CHANNEL_LIMIT, ROW_LIMIT};
use outside::texts::Draft;

const SEED: u64 = 20_260_113;
const CHAINS: u64 = 20_000;
/// Each outcome is met in at least one of so many chains; a kept record drawn as 0, then a full text and
/// Budget in one of more.
const SHARE: u64 = 10;
const KEPT_SHARE: u64 = 20;
const RARE_SHARE: u64 = 2_000;

fn main() {
    seeded(SEED, "CHAINS", CHAINS, compare_all);
}

fn compare_all(mut random: Random, chains: u64) {
    let random = &mut random;
    let mut reached = Reached::default();
    for _ in 0..chains {
        let chain = Chain::new(program_inputs::reference(random));
        chain.verified();
        chain.judged();
        chain.shown();
        reached.count(chain.rewritten());
        let envelope = chain.read_and_written();
        reached.count(format!("ending: {:?}", envelope.figures.ending));
        reached.count(chain.turned_back(random));
        reached.count(chain.drawn_as_0());
        let (m, n) = (chain.reference.rows.len(), chain.reference.types.len());
        if (m, n) == (ROW_LIMIT, CHANNEL_LIMIT) {
            reached.count(String::from("256 rows of 8 channels"));
        }
    }
    println!("chains: {chains}");
    reached.print();
    let outcomes = [
        "ending: Settled",
        "altered: 11",
        "altered: 12",
        "plain: as it was",
        "plain: other",
        "drawn as 0: refused",
    ];
    for name in outcomes {
        reached.require(name, chains / SHARE);
    }
    reached.require("drawn as 0: kept", chains / KEPT_SHARE);
    for name in ["ending: Budget", "256 rows of 8 channels"] {
        reached.require(name, chains / RARE_SHARE);
    }
}

/// A reference text, and the record that the product draws of it.
struct Chain {
    reference: Draft,
    text: Vec<u8>,
    record: Vec<u8>,
}

impl Chain {
    fn new(reference: Draft) -> Chain {
        let text = reference.bytes();
        let record = programs::draw(&text);
        assert!(record.starts_with(b"ENV,"), "{}", record.escape_ascii());
        Chain {
            reference,
            text,
            record,
        }
    }

    fn verified(&self) {
        let output = programs::verify(&self.text, &self.record);
        assert_eq!(output, b"OK\n", "{}", self.shown_texts());
    }

    /// Every row of the reference text is Quiet.
    fn judged(&self) {
        let readings = reading_texts::of_rows(&self.reference).concat();
        let output = programs::judge(&self.text, &self.record, &readings);
        let quiet = b"QUIET\n".repeat(self.reference.rows.len());
        assert_eq!(output, quiet, "{}", self.shown_texts());
    }

    /// The panel is that of the figures which are read from the record.
    fn shown(&self) {
        let steps = cundarivo::panel(&self.read().figures).expect("figures within the limits");
        let lines = self.reference.types.iter().zip(steps);
        let owed: String = lines
            .map(|(channel, step)| format!("{},{step}\n", channel.tag))
            .collect();
        let output = programs::panel(&self.text, &self.record);
        assert_eq!(output, owed.as_bytes(), "{}", self.shown_texts());
    }

    fn read(&self) -> Envelope {
        let (m, n) = (self.reference.rows.len(), self.reference.types.len());
        let codes = reference::codes(&self.reference.types);
        let read = cundarivo::read_record(&self.reference.table, m, n, &codes, &self.record);
        read.expect("a record that was drawn")
    }

    /// The record reads as the envelope that is drawn of the rows, and is written as itself.
    fn read_and_written(&self) -> Envelope {
        let (mut rows, mut types) = ([0; ROW_LIMIT * CHANNEL_LIMIT], [0; CHANNEL_LIMIT]);
        let counts = cundarivo::read_reference(&self.text, &mut rows, &mut types)
            .expect("a reference text within the rules");
        let (m, n) = (counts.m, counts.n);
        let drawing = cundarivo::draw(&rows, m, n, 10_000).expect("rows within the limits");
        let envelope = self.read();
        assert_eq!(
            envelope,
            drawing.envelope(&types[..n]),
            "{}",
            self.shown_texts()
        );
        let written = cundarivo::write_record(&envelope, &rows, m);
        assert_eq!(written.as_ref(), Ok(&self.record), "{}", self.shown_texts());
        envelope
    }

    /// What `plain` prints is what is written of the rows, types and labels that are read; it has the same
    /// record, and is printed as it is.
    fn rewritten(&self) -> String {
        let output = programs::plain(&self.text);
        let (mut rows, mut types) = ([0; ROW_LIMIT * CHANNEL_LIMIT], [0; CHANNEL_LIMIT]);
        let counts = cundarivo::read_reference(&self.text, &mut rows, &mut types)
            .expect("a reference text within the rules");
        let labels: Vec<&Vec<u8>> = self.reference.rows.iter().map(|row| &row[0]).collect();
        let written = cundarivo::write_reference(&rows, counts.m, counts.n, &types, &labels);
        assert_eq!(written.as_ref(), Ok(&output), "{}", self.shown_texts());
        assert_eq!(programs::plain(&output), output, "{}", self.shown_texts());
        assert_eq!(
            programs::draw(&output),
            self.record,
            "{}",
            self.shown_texts()
        );
        let own = output == self.text;
        assert_eq!(own, !self.text.contains(&b'<'), "{}", self.shown_texts());
        String::from(if own {
            "plain: as it was"
        } else {
            "plain: other"
        })
    }

    /// An altered record is refused by 11 at its first faulty line, or by 12.
    fn turned_back(&self, random: &mut Random) -> String {
        let FaultyCall { text, refusal, .. } = self.altered(random);
        let (number, line) = (refusal.number, refusal.line);
        let owed = format!("NO,{number},{line}\n");
        let output = programs::verify(&self.text, &text);
        assert_eq!(output, owed.as_bytes(), "{}", text.escape_ascii());
        format!("altered: {number}")
    }

    fn altered(&self, random: &mut Random) -> FaultyCall {
        let rows = TypedRows {
            set: envelopes::set_of(&self.reference),
            types: reference::codes(&self.reference.types),
        };
        let envelope = records::read(&rows, &self.record).expect("a record that was drawn");
        let enveloped = Enveloped { rows, envelope };
        let of_record = |fault: &Fault| matches!(fault, Fault::Form(_) | Fault::Disagreement(_));
        let fits = |fault: &Fault| of_record(fault) && record_calls::fits(&enveloped, *fault);
        let faults: Vec<Fault> = record_calls::all_faults()
            .into_iter()
            .filter(fits)
            .collect();
        let fault = random.pick(&faults);
        record_calls::one_fault(random, &enveloped, fault)
    }

    /// The record of the text with 0 in the place of each value below detection is accepted or refused as by
    /// the outside implementation.
    fn drawn_as_0(&self) -> String {
        let zeros = in_each_place(&self.text, b"0");
        if outside::programs::plain(&zeros) == outside::programs::plain(&self.text) {
            return String::from("drawn as 0: the same rows");
        }
        let record = programs::draw(&zeros);
        let output = programs::verify(&self.text, &record);
        let owed = outside::programs::verify(&self.text, &record);
        assert_eq!(output, owed, "{}", self.shown_texts());
        let kept = output == b"OK\n";
        assert!(kept || output == b"NO,12,0\n", "{}", self.shown_texts());
        let outcome = if kept { "kept" } else { "refused" };
        format!("drawn as 0: {outcome}")
    }

    fn shown_texts(&self) -> String {
        format!("{}{}", self.text.escape_ascii(), self.record.escape_ascii())
    }
}
