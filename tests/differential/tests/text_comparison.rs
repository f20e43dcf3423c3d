//! The product compared with the outside implementation on seeded reference texts, whole and
//! damaged, and on full sweeps. CUNDARIVO_SEED and CUNDARIVO_TEXTS in the environment give another
//! seed and a larger number of seeded texts.

use differential::compare_text::Text;
use differential::lent::{ENOUGH, ROOMS, Room};
use differential::reached::Reached;
use differential::seeded::seeded;
use outside::damage;
use outside::faults::{self, Faulty};
use outside::random::Random;
use outside::rules::{CHANNEL_LIMIT, ROW_LIMIT};
use outside::sweeps;
use outside::texts::{self, Draft};

const SEED: u64 = 20_260_301;
const TEXTS: u64 = 300_000;
/// Each refusal is met in at least one of so many seeded texts.
const REFUSAL_SHARE: u64 = 200;
/// Each kind of value below detection is met in at least one of so many, accepted.
const BELOW_SHARE: u64 = 20;

struct Comparison {
    random: Random,
    texts: u64,
    readings: u64,
    labels: u64,
    /// Accepted texts of as many rows and channels as the limits allow.
    full_texts: u64,
    reached: Reached,
}

fn main() {
    seeded(SEED, "TEXTS", TEXTS, compare_all);
}

fn compare_all(random: Random, texts: u64) {
    let mut comparison = Comparison {
        random,
        texts: 0,
        readings: 0,
        labels: 0,
        full_texts: 0,
        reached: Reached::default(),
    };
    while comparison.texts < texts {
        comparison.compare_seeded();
    }
    comparison.require(texts);
    comparison.compare_sweeps();
    comparison.compare_below_detection();
    comparison.print();
}

impl Comparison {
    /// A whole text, a damaged one, or two faults in both orders.
    fn compare_seeded(&mut self) {
        match self.random.below(8) {
            0..2 => self.compare_whole(),
            2..7 => self.compare_damaged(),
            _ => {
                for faulty in faults::two_faults(&mut self.random) {
                    self.compare_faulty(&faulty);
                }
            }
        }
    }

    fn draft(&mut self) -> Draft {
        let (m, n) = texts::size(&mut self.random);
        Draft::new(&mut self.random, m, n)
    }

    fn compare_whole(&mut self) {
        let draft = self.draft();
        let size = (draft.rows.len(), draft.types.len());
        self.full_texts += u64::from(size == (ROW_LIMIT, CHANNEL_LIMIT));
        let text = self.compare(&draft.bytes());
        assert!(text.outcome.is_ok(), "a whole text is accepted");
        self.reached.count(String::from("text: whole"));
    }

    /// One to three kinds of damage, one after the other.
    fn compare_damaged(&mut self) {
        let draft = self.draft();
        let mut bytes = draft.bytes();
        for _ in 0..=self.random.index(6) / 3 {
            let kind = damage::kind(&mut self.random);
            damage::damage(&mut self.random, &mut bytes, kind, &draft.types);
            self.reached.count(format!("damage: {kind:?}"));
        }
        self.compare(&bytes);
        self.reached.count(String::from("text: damaged"));
    }

    fn compare_faulty(&mut self, faulty: &Faulty) {
        let text = self.compare(&faulty.text);
        assert_eq!(text.outcome, Err(faulty.refusal), "{}", text.shown());
        self.reached.count(String::from("text: two faults"));
    }

    /// A reading with enough room, one with any, and the labels.
    fn compare(&mut self, bytes: &[u8]) -> Text {
        let text = Text::new(bytes);
        let enough = (self.random.pick(&ENOUGH), self.random.pick(&ENOUGH));
        let any = (self.random.pick(&ROOMS), self.random.pick(&ROOMS));
        let number = text.compare_reading(&mut self.random, enough);
        self.reached.count(format!("refusal {number}"));
        if number == 0 {
            for kind in texts::kinds_below_detection(bytes) {
                self.reached.count(kind.to_string());
            }
        }
        let number = text.compare_reading(&mut self.random, any);
        if matches!(number, 7 | 13) {
            self.reached.count(format!("refusal {number}"));
        }
        if number == 0 {
            self.reached.count(room_name(any.0));
        }
        if self.random.once_in(16) {
            text.compare_wrapper();
        }
        self.labels += text.compare_labels(&mut self.random);
        self.readings += 2;
        self.texts += 1;
        text
    }

    /// Texts that differ little from small ones, one reading each.
    fn compare_sweeps(&mut self) {
        let random = &mut self.random;
        let mut swept = 0;
        let mut visit = |bytes: &[u8]| {
            let text = Text::new(bytes);
            let rooms = (random.pick(&ENOUGH), random.pick(&ENOUGH));
            text.compare_reading(random, rooms);
            text.compare_labels(random);
            swept += 1;
        };
        for text in sweeps::SMALL_TEXTS {
            sweeps::one_byte_changes(text.as_bytes(), &mut visit);
        }
        sweeps::short_values(&mut visit);
        sweeps::near_numbers(&mut visit);
        sweeps::short_tags(&mut visit);
        println!("texts of sweeps: {swept}");
        assert!(swept > 200_000, "the sweeps are whole");
    }

    /// Every value below detection of every type, in texts of many rows.
    fn compare_below_detection(&mut self) {
        let mut compared = 0;
        sweeps::rows_below_detection(|_, numbers, bytes| {
            let text = Text::new(bytes);
            let number = text.compare_reading(&mut self.random, (Room::Exact, Room::Exact));
            assert_eq!(number, 0, "{}", text.shown());
            compared += numbers.len();
        });
        println!("values below detection in rows: {compared}");
        assert_eq!(compared, sweeps::BELOW_DETECTION, "the sweep is whole");
    }

    fn print(&self) {
        println!("seeded texts: {}", self.texts);
        println!("of them of 256 rows and 8 channels: {}", self.full_texts);
        println!("readings compared: {}", self.readings);
        println!("labels compared: {}", self.labels);
        self.reached.print();
    }

    /// Stops the tests where an answer, a kind of damage or a room was not met.
    fn require(&self, texts: u64) {
        for number in (0..=7).chain([13]) {
            let name = format!("refusal {number}");
            self.reached.require(&name, texts / REFUSAL_SHARE);
        }
        for kind in texts::BELOW_DETECTION {
            self.reached.require(kind, texts / BELOW_SHARE);
        }
        for kind in damage::damages() {
            self.reached.require(&format!("damage: {kind:?}"), 1);
        }
        for room in ENOUGH {
            self.reached.require(&room_name(room), 1);
        }
        assert!(self.full_texts > 0, "no text of 256 rows and 8 channels");
    }
}

fn room_name(table: Room) -> String {
    format!("accepted with table: {table:?}")
}
