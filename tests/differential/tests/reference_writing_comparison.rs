//! The product compared with the outside implementation on reference texts that are written: of rows
//! within the rules, with each fault alone, with each two at once on one row and on two in both orders,
//! with buffers of every kind of length, and on full sweeps; and what is written read back.
//! CUNDARIVO_SEED and CUNDARIVO_WRITINGS in the environment give another seed and a larger number of
//! seeded calls.

use differential::compare_reference_writing::ReferenceWriting;
use differential::reached::Reached;
use differential::seeded::seeded;
use outside::damage;
use outside::known_reference_writings;
use outside::random::Random;
use outside::reference;
use outside::reference_writing::{LabelledRows, LentLabels};
use outside::reference_writing_faults::{self, Fault, FaultyWriting, Rows, TableDraft};
use outside::rules::{CHANNEL_LIMIT, ROW_LIMIT, Refusal};
use outside::texts::{self, Draft};
use std::collections::BTreeSet;

const SEED: u64 = 20_261_117;
const WRITINGS: u64 = 310_000;
/// How many calls within the rules are made for each two faults.
const WHOLE_FOR_PAIR: u64 = 2;
/// Each answer is met in at least one of so many calls, and each fault alone in one of so many.
const ANSWER_SHARE: u64 = 50;
const KIND_SHARE: u64 = 2_500;
const PAIR_SHARE: u64 = 8_000;
/// Reference texts, whole and damaged, that are read and written back.
const TEXTS: u64 = 30_000;
const LEAST_SWEPT: u64 = 69_000;
/// The numbers of the refusals in the order of their tests.
const ORDER: [u32; 5] = [8, 3, 4, 5, 13];

struct Comparison {
    random: Random,
    calls: u64,
    round_trips: u64,
    /// Every two faults that were put into one call.
    pairs: BTreeSet<([Fault; 2], Rows)>,
    reached: Reached,
}

fn main() {
    seeded(SEED, "WRITINGS", WRITINGS, compare_all);
}

fn compare_all(random: Random, writings: u64) {
    let mut comparison = Comparison {
        random,
        calls: 0,
        round_trips: 0,
        pairs: BTreeSet::new(),
        reached: Reached::default(),
    };
    while comparison.calls < writings {
        comparison.compare_round();
    }
    println!("seeded calls: {}", comparison.calls);
    println!("round trips: {}", comparison.round_trips);
    comparison.reached.print();
    comparison.require(writings);
    comparison.compare_texts();
    comparison.compare_sweeps();
    println!("calls in all: {}", comparison.calls);
}

impl Comparison {
    /// Each two faults once, each fault alone, and calls within the rules.
    fn compare_round(&mut self) {
        for fault in reference_writing_faults::all_faults() {
            self.compare_fault(fault);
        }
        for (faults, rows) in reference_writing_faults::pairs() {
            self.compare_two_faults(faults, rows);
            if self.random.once_in(WHOLE_FOR_PAIR) {
                self.compare_whole();
            }
        }
        self.compare_every_length();
    }

    fn compare_fault(&mut self, fault: Fault) {
        let draft = TableDraft::any(&mut self.random, 1);
        if fault.fits(draft.labels.len()) {
            let faulty = reference_writing_faults::one_fault(&mut self.random, &draft, fault);
            self.compare_faulty(&faulty);
            self.reached.count(format!("alone: {fault:?}"));
        }
    }

    fn compare_two_faults(&mut self, faults: [Fault; 2], rows: Rows) {
        let draft = TableDraft::any(&mut self.random, 3);
        let faulty = reference_writing_faults::two_faults(&mut self.random, &draft, faults, rows);
        self.compare_faulty(&faulty);
        self.reached
            .count(pair_name(faults.map(Fault::number), rows));
        self.pairs.insert((faults, rows));
    }

    fn compare_faulty(&mut self, faulty: &FaultyWriting) {
        let writing = ReferenceWriting::new(&faulty.table);
        let answer = self.compare(&writing, faulty.places);
        assert_eq!(answer, Err(faulty.refusal), "{}", writing.shown());
    }

    /// Rows that are accepted, with a buffer of the text's length, or of any.
    fn compare_whole(&mut self) {
        let draft = TableDraft::any(&mut self.random, 1);
        let (m, n) = (draft.labels.len(), draft.types.len());
        if (m, n) == (ROW_LIMIT, CHANNEL_LIMIT) {
            self.reached
                .count(String::from("whole: 256 rows of 8 channels"));
        }
        let mut table = draft.lent();
        reference_writing_faults::lend_longer(&mut self.random, &mut table, &[]);
        let writing = ReferenceWriting::new(&table);
        let length = writing.length();
        let any = self.random.index(length);
        let places = [0, any, length - 1, length, length + 1, length + 40];
        let kind = self.random.index(places.len());
        let answer = self.compare(&writing, places[kind]);
        let owed = if kind < 3 { 13 } else { 0 };
        assert_eq!(number(&answer), owed, "{}", writing.shown());
        self.reached.count(format!("whole: {}", BUFFERS[kind]));
        writing.compare_round_trip();
        self.round_trips += 1;
    }

    /// Buffers of every length from none to one more than the text's.
    fn compare_every_length(&mut self) {
        let m = 1 + self.random.index(8);
        let n = 1 + self.random.index(CHANNEL_LIMIT);
        let table = TableDraft::new(&mut self.random, m, n).lent();
        let writing = ReferenceWriting::new(&table);
        let length = writing.length();
        for places in 0..=length + 1 {
            let answer = self.compare(&writing, places);
            let owed = if places < length { 13 } else { 0 };
            assert_eq!(number(&answer), owed, "{}", writing.shown());
        }
        self.reached.count(String::from("whole: every length"));
    }

    fn compare(&mut self, writing: &ReferenceWriting, places: usize) -> Result<usize, Refusal> {
        let answer = writing.compare(&mut self.random, places);
        if self.random.once_in(8) && writing.compare_wrapper() {
            let number = number(&writing.outcome);
            self.reached.count(answer_name("wrapper", number));
        }
        self.calls += 1;
        self.reached.count(answer_name("written", number(&answer)));
        answer
    }

    /// Stops the tests where an answer, a fault, two faults or a kind of buffer was not met often enough.
    fn require(&self, writings: u64) {
        let answers = [0].into_iter().chain(ORDER);
        for number in answers {
            let name = answer_name("written", number);
            self.reached.require(&name, writings / ANSWER_SHARE);
        }
        for number in [0, 3, 4, 5, 8] {
            let name = answer_name("wrapper", number);
            self.reached.require(&name, writings / KIND_SHARE);
        }
        for fault in reference_writing_faults::all_faults() {
            let name = format!("alone: {fault:?}");
            self.reached.require(&name, writings / PAIR_SHARE);
        }
        for name in pair_names() {
            self.reached.require(&name, writings / PAIR_SHARE);
        }
        for kind in BUFFERS {
            let name = format!("whole: {kind}");
            self.reached.require(&name, writings / KIND_SHARE);
        }
        self.reached.require("whole: every length", 1);
        self.reached.require("whole: 256 rows of 8 channels", 1);
        let pairs = reference_writing_faults::pairs();
        assert_eq!(self.pairs.len(), pairs.len(), "every two faults");
    }

    /// Texts, whole and damaged: one that the outside implementation accepts is written back as its own
    /// bytes, or with values below detection as what they read as.
    fn compare_texts(&mut self) {
        let mut reached = Reached::default();
        for _ in 0..TEXTS {
            let (m, n) = texts::size(&mut self.random);
            let draft = Draft::new(&mut self.random, m, n);
            let mut text = draft.bytes();
            if self.random.once_in(2) {
                let kind = damage::kind(&mut self.random);
                damage::damage(&mut self.random, &mut text, kind, &draft.types);
            }
            let Ok(read) = reference::read(&text) else {
                continue;
            };
            let writing = ReferenceWriting::new(&LabelledRows::read(&read, &text));
            let length = text.len();
            let answer = self.compare(&writing, length);
            let own = writing.outcome.as_ref() == Ok(&text);
            assert_eq!(own, !text.contains(&b'<'), "{}", writing.shown());
            assert_eq!(answer.is_ok(), writing.length() <= length);
            writing.compare_round_trip();
            reached.count(format!("text: as it was {own}"));
        }
        reached.print();
        for own in [true, false] {
            reached.require(&format!("text: as it was {own}"), TEXTS / 20);
        }
    }

    /// Every byte in every place of a label, every number round the ranges under every type, and every
    /// end from none to past the bytes.
    fn compare_sweeps(&mut self) {
        let before = self.calls;
        let mut reached = Reached::default();
        for table in swept() {
            let answer = self.compare(&ReferenceWriting::new(&table), ROOM);
            reached.count(answer_name("sweep", number(&answer)));
        }
        println!("calls of sweeps: {}", self.calls - before);
        reached.print();
        for number in [0, 3, 4, 5, 8] {
            reached.require(&answer_name("sweep", number), 30);
        }
        assert!(self.calls - before >= LEAST_SWEPT, "the sweeps are whole");
    }
}

/// Room that is enough for small texts.
const ROOM: usize = 100;

/// The kinds of buffers that accepted rows are lent.
const BUFFERS: [&str; 6] = [
    "no place",
    "shorter",
    "one place fewer",
    "exact",
    "one place more",
    "longer",
];

/// Tables that differ little from document 01's, or of one row of one value.
fn swept() -> Vec<LabelledRows> {
    let document = known_reference_writings::document();
    let mut list = Vec::new();
    for byte in 0..=u8::MAX {
        for place in 0..12 {
            let mut label = *b"ABCDEFGHIJKL";
            label[place] = byte;
            let labels = LentLabels::of(&[&label[..], b"B", &label[..1 + place]]);
            list.push(LabelledRows {
                labels,
                ..document.clone()
            });
        }
    }
    for ends in 0..6 * 6 * 6 {
        let mut table = document.clone();
        table.labels.ends = vec![ends / 36, ends / 6 % 6, ends % 6];
        list.push(table);
    }
    for code in 0..=u8::MAX {
        let numbers = if (1..=8).contains(&code) {
            -4_100..=4_100
        } else {
            -1..=1
        };
        for value in numbers {
            let mut table = document.clone();
            (table.rows.set.m, table.rows.set.n) = (1, 1);
            table.rows.set.places = vec![value];
            table.rows.types = vec![code];
            table.labels = LentLabels::of(&["A"]);
            list.push(table);
        }
    }
    list
}

fn number<Accepted>(answer: &Result<Accepted, Refusal>) -> u32 {
    answer.as_ref().map_or_else(|refusal| refusal.number, |_| 0)
}

fn answer_name(call: &str, number: u32) -> String {
    match number {
        0 => format!("{call}: accepted"),
        _ => format!("{call}: refusal {number}"),
    }
}

/// On two rows the number of the earlier one comes first.
fn pair_name([one, other]: [u32; 2], rows: Rows) -> String {
    match rows {
        Rows::One => format!("faults: {one} and {other}"),
        Rows::Two => format!("faults: {one} on a row, then {other}"),
    }
}

/// Every two numbers that a call can meet at once.
fn pair_names() -> Vec<String> {
    let one_row = [
        [8, 8],
        [8, 3],
        [8, 4],
        [8, 5],
        [8, 13],
        [3, 4],
        [3, 13],
        [4, 5],
        [4, 13],
        [5, 13],
    ];
    let mut names: Vec<String> = one_row.map(|pair| pair_name(pair, Rows::One)).into();
    for one in [3, 4, 5] {
        names.extend([3, 4, 5].map(|other| pair_name([one, other], Rows::Two)));
    }
    names
}
