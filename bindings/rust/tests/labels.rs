//! Labels given as slices are answered as the library answers them lent, whatever they are, and no more is
//! allocated for them than a text can need. CUNDARIVO_SEED in the environment gives another seed.

use cundarivo::{REFERENCE_BYTES, ROWS, Refusal, write_reference, write_reference_into};
use std::alloc::{GlobalAlloc, Layout, System};
use std::cell::Cell;
use std::collections::BTreeMap;

const SEED: u64 = 20_261_117;
const TABLES: u64 = 100_000;
/// Each answer is met in at least one of so many tables.
const ANSWER_SHARE: u64 = 100;

/// The system's allocator, which counts the bytes that each thread asks for.
struct Counting;

thread_local! {
    static ALLOCATED: Cell<usize> = const { Cell::new(0) };
}

// SAFETY: every call is the system's own.
unsafe impl GlobalAlloc for Counting {
    unsafe fn alloc(&self, layout: Layout) -> *mut u8 {
        ALLOCATED.set(ALLOCATED.get() + layout.size());
        unsafe { System.alloc(layout) }
    }

    unsafe fn dealloc(&self, place: *mut u8, layout: Layout) {
        unsafe { System.dealloc(place, layout) }
    }
}

#[global_allocator]
static ALLOCATOR: Counting = Counting;

struct Random(u64);

impl Random {
    /// A number from 0 to `bound` - 1.
    fn below(&mut self, bound: usize) -> usize {
        self.0 ^= self.0 << 13;
        self.0 ^= self.0 >> 7;
        self.0 ^= self.0 << 17;
        (self.0 >> 11) as usize % bound
    }

    fn once_in(&mut self, times: usize) -> bool {
        self.below(times) == 0
    }
}

struct Table {
    rows: Vec<i32>,
    m: usize,
    n: usize,
    codes: Vec<u8>,
    labels: Vec<Vec<u8>>,
}

impl Table {
    /// Few rows with labels that are often in form and sometimes repeated; now and then the most rows, too
    /// many, or more labels than rows.
    fn new(random: &mut Random) -> Table {
        let most = match random.below(40) {
            0 => [ROWS - 1, ROWS, ROWS + 1, ROWS + 2][random.below(4)],
            _ => random.below(6),
        };
        let n = 1 + random.below(8);
        let label_count = match random.below(12) {
            0 => most + 1,
            1 => most.saturating_sub(1),
            2 if random.once_in(20) => 3_000,
            _ => most,
        };
        let m = if random.once_in(50) { usize::MAX } else { most };
        Table {
            rows: (0..most * n).map(|_| coordinate(random)).collect(),
            m,
            n,
            codes: (0..n).map(|_| 1 + random.below(8) as u8).collect(),
            labels: (0..label_count).map(|row| label(random, row)).collect(),
        }
    }

    /// The answer of the library's own call to all the bytes of the labels.
    fn lent(&self) -> Result<Vec<u8>, Refusal> {
        let bytes = self.labels.concat();
        let ends = self.labels.iter().scan(0, |end, label| {
            *end += label.len();
            Some(*end)
        });
        let ends: Vec<usize> = ends.collect();
        let mut text = vec![0; REFERENCE_BYTES];
        let (m, n) = (self.m, self.n);
        let answer = write_reference_into(&self.rows, m, n, &self.codes, &bytes, &ends, &mut text);
        let (number, line) = (answer.number, answer.line);
        text.truncate(answer.length);
        match number {
            0 => Ok(text),
            _ => Err(Refusal { number, line }),
        }
    }
}

/// In the range of every type, but for one in 200.
fn coordinate(random: &mut Random) -> i32 {
    match random.below(200) {
        0 => [-4_001, -2_001, -1, 1_401, 2_001, 4_001][random.below(6)],
        _ => random.below(1_401) as i32,
    }
}

/// In form and of its own, but for a few that are short, long, faulty in one byte or those of an
/// earlier row.
fn label(random: &mut Random, row: usize) -> Vec<u8> {
    let mut label = format!("R-{row}").into_bytes();
    match random.below(40) {
        0 => label = format!("R-{}", random.below(row + 1)).into_bytes(),
        1 => label.truncate(random.below(2)),
        2 => label.resize([12, 13, 14, 500][random.below(4)], b'X'),
        3 if random.once_in(4) => label[0] = [b'a', b',', b'\n', 0][random.below(4)],
        4 if random.once_in(4) => {
            label.resize(12 + random.below(3), b'X');
            label.push(b'x');
        }
        _ => {}
    }
    label
}

#[test]
fn slices_are_answered_as_lent_labels() {
    let seed = std::env::var("CUNDARIVO_SEED").map_or(SEED, |seed| seed.parse().expect("a seed"));
    println!("seed {seed}");
    // A state of 0 stays 0.
    let mut random = Random(seed.max(1));
    let mut reached = BTreeMap::new();
    for place in 0..TABLES {
        let table = Table::new(&mut random);
        let Table {
            rows, codes, m, n, ..
        } = &table;
        let lent = table.lent();
        let given = write_reference(rows, *m, *n, codes, &table.labels);
        assert_eq!(given, lent, "table {place} of seed {seed}");
        let number = lent.map_or_else(|refusal| refusal.number, |_| 0);
        *reached.entry(number).or_insert(0) += 1;
    }
    println!("answers: {reached:?}");
    let numbers: Vec<u32> = reached.keys().copied().collect();
    assert_eq!(numbers, [0, 3, 4, 5, 8]);
    assert!(
        reached
            .values()
            .all(|&count| count >= TABLES / ANSWER_SHARE)
    );
}

/// The answer, and how many bytes this thread asks for to give it.
fn refusal_and_bytes(m: usize, labels: &[&[u8]]) -> (Refusal, usize) {
    let before = ALLOCATED.get();
    let refusal = write_reference(&vec![0; ROWS], m, 1, &[1], labels).unwrap_err();
    (refusal, ALLOCATED.get() - before)
}

/// Joined whole, these labels would have 256 MiB and more than there is memory.
#[test]
fn refused_labels_are_not_joined_whole() {
    let long = vec![b'A'; 1 << 20];
    for (m, labels, expected) in [
        (ROWS, ROWS, (3, 2)),
        (ROWS, ROWS + 1, (8, 0)),
        (usize::MAX, 1_000_000, (8, 0)),
        (1_000_000, 1_000_000, (8, 0)),
    ] {
        let labels = vec![long.as_slice(); labels];
        let (refusal, bytes) = refusal_and_bytes(m, &labels);
        assert_eq!((refusal.number, refusal.line), expected);
        assert!(bytes < 32_768, "{bytes} bytes");
    }
}
