//! The stored cases read back from their bytes are the cases that were written.

use outside::cases::Case;
use outside::random::Random;
use outside::sets::Set;
use outside::stored;

struct Reader<'a> {
    bytes: &'a [u8],
}

impl Reader<'_> {
    /// The number in the next `count` bytes, the lowest first.
    fn number(&mut self, count: usize) -> u32 {
        let (next, rest) = self.bytes.split_at(count);
        self.bytes = rest;
        next.iter()
            .rev()
            .fold(0, |number, &byte| number * 256 + u32::from(byte))
    }

    fn place(&mut self) -> i32 {
        i32::from(self.number(2) as u16 as i16)
    }

    fn case(&mut self) -> Option<Case> {
        let kind = self.number(1);
        if kind == 255 {
            return None;
        }
        let m = self.number(2) as usize;
        let n = self.number(1) as usize;
        let budget = self.number(4);
        let places = (0..self.number(2)).map(|_| self.place()).collect();
        let set = Set { places, m, n };
        if kind == 0 {
            return Some(Case::Draw(set, budget));
        }
        let weights = (0..self.number(2)).map(|_| self.number(4)).collect();
        Some(Case::Check(set, weights))
    }
}

#[test]
fn stored_cases_read_back() {
    let list = stored::stored_cases(&mut Random::new(6));
    let bytes = stored::input(&list);
    let mut reader = Reader { bytes: &bytes };
    for case in &list {
        assert_eq!(reader.case().as_ref(), Some(case));
    }
    assert_eq!(reader.case(), None);
    assert!(reader.bytes.is_empty());
}

#[test]
fn every_refusal_is_stored() {
    let list = stored::stored_cases(&mut Random::new(6));
    let output = stored::output(&list);
    assert_eq!(output.lines().count(), list.len());
    for number in ["0,0,0,", "0,0,1,", "8,0,", "9,0,", "12,0,"] {
        assert!(output.lines().any(|line| line.starts_with(number)));
    }
}

/// Rows 0 and 10: X is 327,680 and each weight 32,768.
#[test]
fn line_of_the_first_trial() {
    let list = stored::stored_cases(&mut Random::new(6));
    let output = stored::output(&list[..1]);
    let centre = 36 * 262_144_000_i64 + 327_680;
    let expected = format!("0,0,1,1,107374182400,107374182400,{centre},98304\n");
    assert_eq!(output, expected);
}

/// The program in the gate runs the cases that this implementation writes, on its answers.
#[test]
fn the_gate_has_these_cases() {
    let folder = concat!(env!("CARGO_MANIFEST_DIR"), "/../../crates/drawing_cases/");
    let list = stored::stored_cases(&mut Random::new(stored::SEED));
    let input = std::fs::read(format!("{folder}stdin")).unwrap();
    let output = std::fs::read_to_string(format!("{folder}stdout")).unwrap();
    assert_eq!(input, stored::input(&list));
    assert_eq!(output, stored::output(&list));
}
