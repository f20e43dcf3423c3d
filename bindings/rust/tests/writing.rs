//! The reference texts that are written of named tables, the least and the largest among them, and the
//! refusals of faulty ones.

use cundarivo::{
    CHANNELS, REFERENCE_BYTES, ROWS, label, read_reference, write_reference, write_reference_into,
};

const TOC: u8 = 1;
const ORP: u8 = 8;

fn refusal<L: AsRef<[u8]>>(
    rows: &[i32],
    (m, n): (usize, usize),
    codes: &[u8],
    labels: &[L],
) -> (u32, u32) {
    let refusal = write_reference(rows, m, n, codes, labels).unwrap_err();
    (refusal.number, refusal.line)
}

/// As many labels of 12 bytes.
fn labels(count: usize) -> Vec<String> {
    (1..=count).map(|row| format!("POINT-{row:06}")).collect()
}

#[test]
fn counts_places_and_codes_outside_the_limits() {
    let rows = [0; ROWS + 1];
    for (m, n) in [(0, 1), (ROWS + 1, 1), (2, 0), (2, CHANNELS + 1)] {
        assert_eq!(refusal(&rows, (m, n), &[TOC; 9], &labels(m)), (8, 0));
    }
    // m·n wraps to 0, to 1 and to 4.
    for (m, n) in [(1 << 63, 2), (usize::MAX, usize::MAX), ((1 << 62) + 1, 4)] {
        assert_eq!(refusal(&rows, (m, n), &[TOC; 8], &labels(1)), (8, 0));
    }
    assert_eq!(refusal(&rows[..3], (2, 2), &[TOC; 2], &labels(2)), (8, 0));
    assert_eq!(refusal(&rows, (2, 2), &[TOC], &labels(2)), (8, 0));
    for code in [0, 9, 255] {
        assert_eq!(refusal(&rows, (2, 2), &[TOC, code], &labels(2)), (8, 0));
    }
    for count in [0, 1, 3] {
        assert_eq!(refusal(&rows, (2, 2), &[TOC; 2], &labels(count)), (8, 0));
    }
}

/// ±4,001 is outside the limits wherever it stands; within them the range of the type counts.
#[test]
fn values_at_their_bounds() {
    for (code, value, expected) in [
        (TOC, 2_001, (4, 3)),
        (TOC, -1, (4, 3)),
        (TOC, 4_000, (4, 3)),
        (TOC, 4_001, (8, 0)),
        (ORP, -2_001, (4, 3)),
        (ORP, -4_000, (4, 3)),
        (ORP, -4_001, (8, 0)),
    ] {
        assert_eq!(refusal(&[0, value], (2, 1), &[code], &labels(2)), expected);
        // A label that is out of form on the first row comes before a value of the second.
        let faulty = if expected.0 == 8 { (8, 0) } else { (3, 2) };
        assert_eq!(refusal(&[0, value], (2, 1), &[code], &["", "B"]), faulty);
    }
    let written = write_reference(&[0, 2_000, 7_777], 2, 1, &[TOC, 99], &["A", "B"]);
    assert_eq!(written.as_deref(), Ok(&b"REF,1,TOC\nA,0\nB,2000\n"[..]));
    let written = write_reference(&[-2_000, 2_000], 1, 2, &[ORP, ORP], &["A"]);
    assert_eq!(
        written.as_deref(),
        Ok(&b"REF,2,ORP,ORP\nA,-2000,2000\n"[..])
    );
}

#[test]
fn labels_out_of_form_and_repeated() {
    let faulty: [&[u8]; 10] = [
        b"",
        b"ABCDEFGHIJKL-",
        b"a",
        b"A B",
        b"A,5",
        b"A\n",
        b"\0",
        b"A\0",
        b"<5",
        "\u{c4}".as_bytes(),
    ];
    for label in faulty {
        assert_eq!(refusal(&[0, 0], (2, 1), &[TOC], &[b"A", label]), (3, 3));
        // 3 comes before 4 and 5 of its row.
        assert_eq!(refusal(&[0, 2_001], (2, 1), &[TOC], &[b"A", label]), (3, 3));
    }
    assert_eq!(refusal(&[0, 0], (2, 1), &[TOC], &["A", "A"]), (5, 3));
    assert_eq!(refusal(&[0, 2_001], (2, 1), &[TOC], &["A", "A"]), (4, 3));
    let mut labels = labels(ROWS);
    labels[ROWS - 1] = labels[0].clone();
    assert_eq!(refusal(&[0; ROWS], (ROWS, 1), &[TOC], &labels), (5, 257));
}

/// As long as a text that is written can be: the buffer has no place to spare, and one place fewer is 13.
#[test]
fn the_largest_text_fills_its_room() {
    let (rows, codes, labels) = ([-1_000; ROWS * CHANNELS], [ORP; CHANNELS], labels(ROWS));
    let text = write_reference(&rows, ROWS, CHANNELS, &codes, &labels).expect("a table");
    assert_eq!(text.len(), REFERENCE_BYTES);
    let (mut read, mut types) = ([0; ROWS * CHANNELS], [0; CHANNELS]);
    let counts = read_reference(&text, &mut read, &mut types).expect("a written text");
    assert_eq!((counts.m, counts.n), (ROWS, CHANNELS));
    assert_eq!((read, types), (rows, codes));
    for (row, own) in (1..).zip(&labels) {
        assert_eq!(label(&text, row), own.as_bytes());
    }

    let (bytes, ends) = (labels.concat(), (1..=ROWS).map(|row| 12 * row));
    let (bytes, ends): (_, Vec<usize>) = (bytes.as_bytes(), ends.collect());
    for places in [0, REFERENCE_BYTES - 1] {
        let mut buffer = vec![b'.'; places];
        let answer = write_reference_into(&rows, ROWS, CHANNELS, &codes, bytes, &ends, &mut buffer);
        assert_eq!((answer.number, answer.line, answer.length), (13, 0, 0));
        assert!(buffer.iter().all(|&byte| byte == b'.'));
    }
}

/// Labels A and BC, lent with ends that do not part their bytes.
#[test]
fn ends_that_do_not_part_the_labels() {
    let answer = |ends: &[usize]| {
        let mut buffer = [b'.'; 64];
        let answer = write_reference_into(&[5, 7], 2, 1, &[TOC], b"ABC", ends, &mut buffer);
        assert_eq!(answer.line, 0);
        assert_eq!(buffer == [b'.'; 64], answer.number != 0);
        answer.number
    };
    assert_eq!(answer(&[1, 3]), 0);
    let most = usize::MAX;
    for ends in [
        &[][..],
        &[3],
        &[1, 2, 3],
        &[1, 3, 3],
        &[3, 1],
        &[4, 3],
        &[1, 2],
        &[1, 4],
        &[most, 3],
        &[1, most],
        &[most, most],
    ] {
        assert_eq!(answer(ends), 8, "ends {ends:?}");
    }
}
