//! What values below detection read as, in rows and in readings, and what becomes of records that were drawn
//! where they read as 0.

use cundarivo::{Refusal, Verdict, draw, measure, programs, read_reference};

/// The tags with the highs of their types, in the order of their codes.
const TYPES: [(&str, i32); 8] = [
    ("TOC", 2_000),
    ("TC", 4_000),
    ("IC", 4_000),
    ("CND", 4_000),
    ("TMP", 1_500),
    ("PH", 1_400),
    ("FLW", 4_000),
    ("ORP", 2_000),
];

/// What this field reads as in a row of one channel, and the code of the channel.
fn in_row(tag: &str, field: &str) -> Result<(i32, u8), Refusal> {
    let (mut table, mut codes) = ([-1], [0]);
    let text = format!("REF,1,{tag}\nA,{field}\n");
    read_reference(text.as_bytes(), &mut table, &mut codes)?;
    Ok((table[0], codes[0]))
}

/// What it reads as in a reading, whose s is 0 where it is the only row of the envelope.
fn in_reading(tag: &str, field: &str, (row, code): (i32, u8)) -> Result<(i32, u64), Refusal> {
    let figures = draw(&[row], 1, 1, 0)?.figures(&[code]);
    let measured = measure(&figures, format!("LOOP-1,{tag},{field}\n").as_bytes())?;
    Ok((measured.values[0], measured.scaled_squared_distance))
}

#[test]
fn one_fifty_and_fifty_one() -> Result<(), Refusal> {
    let (mut table, mut codes) = ([-1; 3], [0; 3]);
    read_reference(b"REF,3,TOC,CND,ORP\nA,<1,<50,<51\n", &mut table, &mut codes)?;
    assert_eq!(table, [0, 25, 25]);
    let figures = draw(&[0, 25, 25], 1, 3, 0)?.figures(&codes);
    let measured = measure(&figures, b"LOOP-1,TOC,<1,CND,<50,ORP,<51\n")?;
    assert_eq!(measured.values, [0, 25, 25]);
    assert_eq!(measured.scaled_squared_distance, 0);
    assert_eq!(measured.verdict, Verdict::Quiet);
    Ok(())
}

#[test]
fn every_number_of_every_type() -> Result<(), Refusal> {
    for ((tag, high), code) in TYPES.into_iter().zip(1..) {
        for number in 1..=high {
            let (field, half) = (format!("<{number}"), number / 2);
            assert_eq!(in_row(tag, &field)?, (half, code), "{tag},{field}");
            let read = in_reading(tag, &field, (half, code))?;
            assert_eq!(read, (half, 0), "{tag},{field}");
        }
    }
    Ok(())
}

/// `<` is followed by a number from 1 to the type's high, whatever that reads as.
#[test]
fn numbers_outside_the_range() {
    for ((tag, high), code) in TYPES.into_iter().zip(1..) {
        for number in [-1, 0, high + 1, 2 * high] {
            let field = format!("<{number}");
            let refusal = in_row(tag, &field).unwrap_err();
            assert_eq!((refusal.number, refusal.line), (4, 2), "{tag},{field}");
            let refusal = in_reading(tag, &field, (0, code)).unwrap_err();
            assert_eq!((refusal.number, refusal.line), (4, 1), "{tag},{field}");
        }
    }
}

/// The record of the row 0 is that of `<50` where it reads as 0.
#[test]
fn records_drawn_where_they_read_as_0() {
    let record = b"ENV,1,TOC\nC,0\nR,0,0,0,S\nW,1,65536\n";
    assert_eq!(
        programs::verify(b"REF,1,TOC\nA,<50\n", record),
        b"NO,12,0\n"
    );
    assert_eq!(programs::verify(b"REF,1,TOC\nA,<1\n", record), b"OK\n");

    // The row D is within the ball and carries no weight: the figures are the same.
    let reference = |fourth: &str| format!("REF,2,TOC,CND\nA,0,0\nB,6,0\nC,0,8\nD,{fourth}\n");
    let record = programs::draw(reference("0,0").as_bytes());
    assert!(record.starts_with(b"ENV,2,TOC,CND\nC,196608,262144\n"));
    let verified = |fourth| programs::verify(reference(fourth).as_bytes(), &record);
    assert_eq!(verified("<4,<4"), b"OK\n");
    assert_eq!(verified("<4,<40"), b"NO,12,0\n");
}
