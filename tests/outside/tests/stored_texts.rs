//! The stored texts read back from their bytes are the texts that were written.

use outside::known_texts;
use outside::random::Random;
use outside::stored_texts::{self, StoredText};

/// The number in some bytes, the lowest first.
fn number(bytes: &[u8]) -> usize {
    bytes
        .iter()
        .rev()
        .fold(0, |number, &byte| number * 256 + usize::from(byte))
}

#[test]
fn stored_texts_read_back() {
    let list = stored_texts::stored_texts(&mut Random::new(6));
    let bytes = stored_texts::input(&list);
    let mut rest = &bytes[..];
    for case in &list {
        let (frame, after) = rest.split_at(5);
        let (text, next) = after.split_at(number(&frame[..3]));
        let places = number(&frame[3..]);
        let text = text.to_vec();
        assert_eq!(&StoredText { text, places }, case);
        rest = next;
    }
    assert!(rest.is_empty());
}

#[test]
fn every_refusal_is_stored() {
    let list = stored_texts::stored_texts(&mut Random::new(6));
    let output = stored_texts::output(&list);
    assert_eq!(output.lines().count(), list.len());
    for number in ["0,0,", "1,0,", "2,1,", "3,", "4,", "5,", "6,", "7,0,"] {
        assert!(output.lines().any(|line| line.starts_with(number)));
    }
}

/// TOC 2000 is read, 2001 gives 4; the 256th row is read, the 257th gives 6.
#[test]
fn the_trial_figures_come_first() {
    let list = stored_texts::stored_texts(&mut Random::new(6));
    let names: Vec<&str> = known_texts::trials()
        .iter()
        .map(|known| known.name)
        .collect();
    assert_eq!(names, ["toc_2000", "toc_2001", "row_256", "row_257"]);
    let places: i64 = (1..=256).sum();
    let expected = format!(
        "0,0,1,1,6000,1,10,1\n4,2,0,0,0,0,0,0\n0,0,256,1,{},1,1795,4\n6,258,0,0,0,0,0,0\n",
        4_007 * places
    );
    assert_eq!(stored_texts::output(&list[..4]), expected);
}

/// A refusal by 7 leaves the table as it was, and the label of row 1 is there.
#[test]
fn line_of_a_short_table() {
    let short = StoredText {
        text: b"REF,1,TOC\nAB,1\nC,2\n".to_vec(),
        places: 1,
    };
    assert_eq!(stored_texts::output(&[short]), "7,0,0,0,0,0,10,2\n");
}

/// The program in the gate reads the texts that this implementation writes, on its answers.
#[test]
fn the_gate_has_these_texts() {
    let folder = concat!(env!("CARGO_MANIFEST_DIR"), "/../../crates/reference_cases/");
    let list = stored_texts::stored_texts(&mut Random::new(stored_texts::SEED));
    let input = std::fs::read(format!("{folder}stdin")).unwrap();
    let output = std::fs::read_to_string(format!("{folder}stdout")).unwrap();
    assert_eq!(input, stored_texts::input(&list));
    assert_eq!(output, stored_texts::output(&list));
}
