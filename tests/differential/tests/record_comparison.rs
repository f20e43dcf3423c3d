//! The product compared with the outside implementation on records read and envelopes written:
//! drawn and checked ones, whole, damaged, out of form, in disagreement and outside the limits, with
//! rooms and buffers of every length, and on full sweeps. CUNDARIVO_SEED and CUNDARIVO_RECORDS in
//! the environment give another seed and a larger number of seeded comparisons.

use differential::compare_record::{Record, Writing};
use differential::lent::{ENOUGH, ROOMS, Room};
use differential::reached::Reached;
use differential::seeded::seeded;
use outside::known_records;
use outside::random::Random;
use outside::record_calls::{self, FaultyCall};
use outside::record_damage;
use outside::record_texts::{self, BUDGETS, Enveloped};
use outside::records::TypedRows;
use outside::rules::{CHANNEL_LIMIT, ROW_LIMIT};
use outside::sets::{self, SHAPES};
use outside::sweeps;
use outside::writing_faults::{self, FaultyWriting, WritingCall};

const SEED: u64 = 20_260_108;
const RECORDS: u64 = 500_000;
/// Envelopes that the product draws.
const DRAWINGS: u64 = 2_000;
/// How many comparisons follow from one envelope, besides those of every length of a buffer.
const OF_ONE_ENVELOPE: usize = 24;
/// Each answer is met in at least one of so many seeded comparisons.
const ANSWER_SHARE: u64 = 100;
/// Each fault, each kind of damage and each pair of faults is met in at least one of so many.
const KIND_SHARE: u64 = 5_000;
/// The least number of comparisons in all, and of those of the sweeps.
const LEAST_COMPARED: u64 = 600_000;
const LEAST_SWEPT: u64 = 150_000;

struct Comparison {
    random: Random,
    records_read: u64,
    records_written: u64,
    reached: Reached,
}

fn main() {
    seeded(SEED, "RECORDS", RECORDS, compare_all);
}

fn compare_all(random: Random, records: u64) {
    let mut comparison = Comparison {
        random,
        records_read: 0,
        records_written: 0,
        reached: Reached::default(),
    };
    while comparison.compared() < records {
        comparison.compare_seeded();
    }
    comparison.print();
    comparison.require(records);
    comparison.compare_drawings();
    comparison.compare_sweeps();
    println!("comparisons in all: {}", comparison.compared());
    assert!(comparison.compared() >= LEAST_COMPARED);
}

impl Comparison {
    fn compared(&self) -> u64 {
        self.records_read + self.records_written
    }

    fn print(&self) {
        println!("seeded records read: {}", self.records_read);
        println!("seeded envelopes written: {}", self.records_written);
        self.reached.print();
    }

    /// An envelope of any rows, or one of as many weights as there can be; both calls within the
    /// rules, then calls with faults.
    fn compare_seeded(&mut self) {
        let enveloped = if self.random.once_in(100) {
            self.reached.count(String::from("envelope: 256 weights"));
            Enveloped::full(&mut self.random)
        } else {
            record_texts::any(&mut self.random)
        };
        self.compare_whole(&enveloped);
        for _ in 0..OF_ONE_ENVELOPE {
            match self.random.below(100) {
                0..20 => self.compare_fault(&enveloped),
                20..35 => self.compare_two_faults(&enveloped),
                35..65 => self.compare_damaged(&enveloped),
                65..95 => self.compare_faulty_writing(&enveloped),
                _ => self.compare_whole(&enveloped),
            }
        }
        if self.random.once_in(24) {
            self.compare_every_length(&enveloped);
        }
        if self.random.once_in(16) {
            let call = record_calls::at_the_limit(&mut self.random, &enveloped);
            self.compare_known(&call);
            self.reached.count(String::from("read: at the limit"));
        }
    }

    /// A record that is accepted, and the envelope of it that is written as the same record.
    fn compare_whole(&mut self, enveloped: &Enveloped) {
        let text = enveloped.text();
        let record = self.compare_read(&enveloped.rows, &text);
        assert_eq!(record.outcome, Ok(enveloped.stated()), "{}", record.shown());
        self.reached.count(String::from("read: whole"));
        let call = WritingCall::new(&mut self.random, enveloped);
        let writing = self.compare_write(&call);
        assert_eq!(writing.outcome, Ok(text), "{}", writing.shown());
        self.reached.count(String::from("write: whole"));
    }

    /// One fault of the rows, the types, the text or its agreement.
    fn compare_fault(&mut self, enveloped: &Enveloped) {
        let fault = self.random.pick(&record_calls::all_faults());
        if !record_calls::fits(enveloped, fault) {
            return;
        }
        let call = record_calls::one_fault(&mut self.random, enveloped, fault);
        self.compare_known(&call);
        self.reached.count(format!("read: {fault:?}"));
    }

    fn compare_two_faults(&mut self, enveloped: &Enveloped) {
        let faults = record_calls::two_faults(&mut self.random, enveloped);
        self.compare_known(&faults.call);
        let [one, other] = faults.numbers;
        self.reached.count(faults_name(one, other));
    }

    fn compare_damaged(&mut self, enveloped: &Enveloped) {
        let (text, kinds) = record_damage::damaged(&mut self.random, enveloped);
        let record = self.compare_read(&enveloped.rows, &text);
        if record.outcome.is_ok() {
            self.reached.count(String::from("read: damaged, accepted"));
        }
        for kind in kinds {
            self.reached.count(format!("damage: {kind:?}"));
        }
    }

    fn compare_faulty_writing(&mut self, enveloped: &Enveloped) {
        let random = &mut self.random;
        let (name, faulty) = if random.once_in(4) {
            let faulty = writing_faults::two_faults(random, enveloped);
            (String::from("write: 12 and 8"), faulty)
        } else {
            let fault = random.pick(&writing_faults::all_faults());
            if !fault.fits(enveloped.rows.set.m) {
                return;
            }
            let faulty = writing_faults::one_fault(random, enveloped, fault);
            (format!("write: {fault:?}"), faulty)
        };
        let FaultyWriting { call, refusal } = faulty;
        let writing = self.compare_write(&call);
        assert_eq!(writing.outcome, Err(refusal), "{}", writing.shown());
        self.reached.count(name);
    }

    /// Buffers of every length from none to one more than the record's.
    fn compare_every_length(&mut self, enveloped: &Enveloped) {
        let call = WritingCall::new(&mut self.random, enveloped);
        let writing = Writing::new(&call.envelope, &call.set.places, call.set.m);
        let record = writing.length();
        for length in 0..=record + 1 {
            let number = writing.compare(&mut self.random, length);
            let owed = if length < record { 13 } else { 0 };
            assert_eq!(number, owed, "{}", writing.shown());
            self.count_written(number);
        }
        self.reached.count(String::from("write: every length"));
    }

    fn compare_known(&mut self, call: &FaultyCall) {
        let record = self.compare_read(&call.rows, &call.text);
        assert_eq!(record.outcome, Err(call.refusal), "{}", record.shown());
    }

    /// With enough room, or with any.
    fn compare_read(&mut self, rows: &TypedRows, text: &[u8]) -> Record {
        let record = Record::new(rows, text);
        let choices: &[Room] = if self.random.once_in(4) {
            &ROOMS
        } else {
            &ENOUGH
        };
        let rooms = (self.random.pick(choices), self.random.pick(choices));
        let number = record.compare(&mut self.random, rooms);
        if self.random.once_in(16) {
            record.compare_wrapper();
        }
        self.records_read += 1;
        self.reached.count(answer_name("read", number));
        if let (0, Ok(envelope)) = (number, &record.outcome) {
            let letter = ["B", "S"][envelope.figures.settled as usize];
            self.reached.count(format!("read: letter {letter}"));
            self.reached.count(room_name("centre", rooms.0));
            self.reached.count(room_name("weights", rooms.1));
        }
        record
    }

    /// With a buffer of the record's length, or of any.
    fn compare_write(&mut self, call: &WritingCall) -> Writing {
        let writing = Writing::new(&call.envelope, &call.set.places, call.set.m);
        let record = writing.length();
        let any = self.random.index(record + 2);
        let length = self.random.pick(&[record, record + 1, record + 40, any]);
        let number = writing.compare(&mut self.random, length);
        if self.random.once_in(16) {
            writing.compare_wrapper();
        }
        self.count_written(number);
        writing
    }

    fn count_written(&mut self, number: u32) {
        self.records_written += 1;
        self.reached.count(answer_name("write", number));
    }

    /// Stops the tests where an answer, a fault, a pair of faults, a kind of damage or a room was not
    /// met often enough.
    fn require(&self, records: u64) {
        for name in answers() {
            self.reached.require(&name, records / ANSWER_SHARE);
        }
        for name in kinds() {
            self.reached.require(&name, records / KIND_SHARE);
        }
    }

    /// Envelopes that the product draws, with budgets from 0 to 10,000: what it writes of them is
    /// what the outside implementation writes, and reads back as the same envelope.
    fn compare_drawings(&mut self) {
        let mut full = 0;
        for _ in 0..DRAWINGS {
            let random = &mut self.random;
            let (shape, (m, n)) = (random.pick(&SHAPES), sets::size(random));
            let set = sets::set(random, shape, m, n);
            let types: Vec<u8> = (0..n).map(|_| random.between(1, 8) as u8).collect();
            let budget = random.pick(&BUDGETS);
            let drawing = cundarivo::draw(&set.places, m, n, budget).expect("rows within limits");
            let drawn = drawing.envelope(&types);
            let text = cundarivo::write_record(&drawn, &set.places, m).expect("a drawn envelope");
            let read = cundarivo::read_record(&set.places, m, n, &types, &text);
            assert_eq!(read, Ok(drawn.clone()), "{set:?}");
            let rows = TypedRows { set, types };
            let record = self.compare_read(&rows, &text);
            let envelope = record.outcome.expect("a drawn envelope");
            let call = WritingCall {
                envelope,
                set: rows.set,
            };
            assert_eq!(self.compare_write(&call).outcome, Ok(text));
            self.reached.count(format!("drawing: budget {budget}"));
            full += u64::from((m, n) == (ROW_LIMIT, CHANNEL_LIMIT));
        }
        println!("drawings: {DRAWINGS}, of 256 rows and 8 channels: {full}");
        assert!(full > 0, "no drawing of 256 rows and 8 channels");
        for budget in BUDGETS {
            let name = format!("drawing: budget {budget}");
            self.reached.require(&name, DRAWINGS / 16);
        }
    }

    /// Records that differ little from small ones: in a byte, in the order of lines, in a number.
    fn compare_sweeps(&mut self) {
        let before = self.records_read;
        let mut swept = Reached::default();
        for (rows, text) in known_records::small() {
            let mut visit = |changed: &[u8]| {
                let record = self.compare_read(&rows, changed);
                let number = record.outcome.map_or_else(|refusal| refusal.number, |_| 0);
                swept.count(answer_name("sweep", number));
            };
            let text = text.as_bytes();
            sweeps::one_byte_changes(text, &mut visit);
            sweeps::line_changes(text, &mut visit);
            sweeps::number_changes(text, known_records::numbers_for, &mut visit);
        }
        let count = self.records_read - before;
        println!("records of sweeps: {count}");
        swept.print();
        assert!(count >= LEAST_SWEPT, "the sweeps are whole");
        swept.require("sweep: accepted", 100);
        swept.require("sweep: refusal 11", LEAST_SWEPT / 2);
        swept.require("sweep: refusal 12", 1_000);
    }
}

fn answer_name(call: &str, number: u32) -> String {
    match number {
        0 => format!("{call}: accepted"),
        _ => format!("{call}: refusal {number}"),
    }
}

fn room_name(slice: &str, room: Room) -> String {
    format!("read: accepted with {slice} {room:?}")
}

/// The number in the upper line comes first.
fn faults_name(one: u32, other: u32) -> String {
    format!("read: {one} and {other}")
}

fn answers() -> Vec<String> {
    let mut names: Vec<String> = [0, 1, 8, 11, 12, 13]
        .map(|number| answer_name("read", number))
        .into();
    names.extend([0, 8, 12, 13].map(|number| answer_name("write", number)));
    let others = ["whole", "letter S", "letter B", "damaged, accepted"];
    names.extend(others.map(|kind| format!("read: {kind}")));
    names.extend(["whole", "12 and 8"].map(|kind| format!("write: {kind}")));
    names.extend(ENOUGH.map(|room| room_name("centre", room)));
    names.extend(ENOUGH.map(|room| room_name("weights", room)));
    names
}

fn kinds() -> Vec<String> {
    let mut names = vec![
        String::from("envelope: 256 weights"),
        String::from("read: at the limit"),
        String::from("write: every length"),
    ];
    let faults = record_calls::all_faults().into_iter();
    names.extend(faults.map(|fault| format!("read: {fault:?}")));
    let faults = writing_faults::all_faults().into_iter();
    names.extend(faults.map(|fault| format!("write: {fault:?}")));
    let damages = record_damage::damages().into_iter();
    names.extend(damages.map(|kind| format!("damage: {kind:?}")));
    let pairs = [(8, 1), (8, 11), (8, 12), (1, 11), (1, 12)];
    names.extend(pairs.map(|(one, other)| faults_name(one, other)));
    let of_lines = [(11, 12), (12, 11), (11, 11)];
    names.extend(of_lines.map(|(one, other)| faults_name(one, other)));
    names
}
