//! The labelled rows that document 02, job 1 and the list of bad input name, with the reference texts
//! that are written of them or their refusals, written down by hand.

use crate::records::TypedRows;
use crate::reference_writing::{LabelledRows, LentLabels};
use crate::rules::Refusal;
use crate::sets::Set;

/// Room that is enough for every text.
const ROOM: usize = 15_654;
/// Document 01's reference text.
const TEXT: &str = "REF,2,TOC,CND\nA,0,0\nB,6,0\nC,0,8\n";

/// Labelled rows by name, the places of the lent buffer, and the answer.
#[derive(Clone, Debug)]
pub struct KnownReferenceWriting {
    pub name: &'static str,
    pub table: LabelledRows,
    pub places: usize,
    pub outcome: Result<Vec<u8>, Refusal>,
}

/// Rows of as many channels as there are codes, one for each label.
fn table<Label: AsRef<[u8]>>(codes: &[u8], rows: &[i32], labels: &[Label]) -> LabelledRows {
    LabelledRows {
        rows: TypedRows {
            set: Set {
                places: rows.to_vec(),
                m: labels.len(),
                n: codes.len(),
            },
            types: codes.to_vec(),
        },
        labels: LentLabels::of(labels),
    }
}

/// The rows of document 01's reference text.
pub fn document() -> LabelledRows {
    table(&[1, 4], &[0, 0, 6, 0, 0, 8], &["A", "B", "C"])
}

fn changed(change: impl FnOnce(&mut LabelledRows)) -> LabelledRows {
    let mut table = document();
    change(&mut table);
    table
}

fn written(
    name: &'static str,
    table: LabelledRows,
    text: impl Into<Vec<u8>>,
) -> KnownReferenceWriting {
    KnownReferenceWriting {
        name,
        table,
        places: ROOM,
        outcome: Ok(text.into()),
    }
}

fn refused(
    name: &'static str,
    table: LabelledRows,
    number: u32,
    line: u32,
) -> KnownReferenceWriting {
    KnownReferenceWriting {
        outcome: Err(Refusal { number, line }),
        ..written(name, table, "")
    }
}

/// Document 01's rows with a change by which they are refused with 8.
fn outside(name: &'static str, change: fn(&mut LabelledRows)) -> KnownReferenceWriting {
    refused(name, changed(change), 8, 0)
}

/// The labels R001 and on.
fn numbered(m: usize) -> Vec<String> {
    (1..=m).map(|row| format!("R{row:03}")).collect()
}

/// Rows under TOC, each with the value 7 and these labels.
fn sevens<Label: AsRef<[u8]>>(labels: &[Label]) -> LabelledRows {
    table(&[1], &vec![7; labels.len()], labels)
}

/// 256 rows with the label of one of them, counted from 1, replaced.
fn relabelled(row: usize, label: &str) -> LabelledRows {
    let mut labels = numbered(256);
    labels[row - 1] = label.into();
    sevens(&labels)
}

pub fn examples() -> Vec<KnownReferenceWriting> {
    vec![
        written("document", document(), TEXT),
        written("one_row", table(&[1], &[5], &["A"]), "REF,1,TOC\nA,5\n"),
        written(
            "negative",
            table(&[5, 8], &[-1, -2000], &["LOOP-1"]),
            "REF,2,TMP,ORP\nLOOP-1,-1,-2000\n",
        ),
        written(
            "equal_rows",
            table(&[6], &[700, 700], &["A", "B"]),
            "REF,1,PH\nA,700\nB,700\n",
        ),
        written(
            "tag_twice",
            table(&[7, 7], &[10, 0], &["A"]),
            "REF,2,FLW,FLW\nA,10,0\n",
        ),
    ]
}

/// The longest line has 61 bytes, the longest heading 38.
fn longest_text() -> KnownReferenceWriting {
    let labels: Vec<String> = (1..=256).map(|row| format!("ROW-{row:08}")).collect();
    let row = |label: &String| format!("{label}{}\n", ",-2000".repeat(8));
    let heading = "REF,8,ORP,ORP,ORP,ORP,ORP,ORP,ORP,ORP\n";
    let text = heading.to_string() + &labels.iter().map(row).collect::<String>();
    assert_eq!(text.len(), ROOM);
    written("longest", table(&[8; 8], &[-2000; 2048], &labels), text)
}

/// The first ends of every range in one row, the last ones in another.
fn ends_of_every_range() -> KnownReferenceWriting {
    let low = [0, 0, 0, 0, -200, 0, 0, -2000];
    let high = [2000, 4000, 4000, 4000, 1500, 1400, 4000, 2000];
    let text = "REF,8,TOC,TC,IC,CND,TMP,PH,FLW,ORP\n\
        LOW,0,0,0,0,-200,0,0,-2000\n\
        HIGH,2000,4000,4000,4000,1500,1400,4000,2000\n";
    let codes = [1, 2, 3, 4, 5, 6, 7, 8];
    let rows = [low, high].concat();
    written(
        "ends_of_every_range",
        table(&codes, &rows, &["LOW", "HIGH"]),
        text,
    )
}

/// Written at the ends of what rows and labels can be.
pub fn at_the_limits() -> Vec<KnownReferenceWriting> {
    let rows_256 = numbered(256);
    let lines: String = rows_256
        .iter()
        .map(|label| format!("{label},7\n"))
        .collect();
    vec![
        written("rows_256", sevens(&rows_256), format!("REF,1,TOC\n{lines}")),
        longest_text(),
        ends_of_every_range(),
    ]
}

/// Places that are not looked at.
pub fn past_the_counts() -> Vec<KnownReferenceWriting> {
    let longer_rows = changed(|table| table.rows.set.places.extend([4_001, i32::MIN]));
    let longer_codes = changed(|table| table.rows.types.extend([0, 9, 255]));
    let fewer_rows = LabelledRows {
        labels: LentLabels::of(&["A", "B"]),
        ..changed(|table| table.rows.set.m = 2)
    };
    vec![
        written("places_past_the_rows", longer_rows, TEXT),
        written("codes_past_the_channels", longer_codes, TEXT),
        written(
            "two_of_three_rows",
            fewer_rows,
            "REF,2,TOC,CND\nA,0,0\nB,6,0\n",
        ),
    ]
}

/// Counts outside their limits: 8.
pub fn counts_outside() -> Vec<KnownReferenceWriting> {
    let rows_257 = sevens(&numbered(257));
    let channels_9 = table(&[4; 9], &[1; 9], &["A"]);
    // 24 places, as many as the product has in 64 bits.
    let mut of_8 = table(&[4; 8], &[1; 24], &["A", "B", "C"]);
    of_8.rows.set.m += 1 << 61;
    vec![
        outside("channels_0", |table| table.rows.set.n = 0),
        refused("channels_9", channels_9, 8, 0),
        outside("channels_most", |table| table.rows.set.n = usize::MAX),
        outside("rows_0", |table| table.rows.set.m = 0),
        outside("rows_0_and_no_labels", |table| {
            table.rows.set.m = 0;
            table.labels = LentLabels::default();
        }),
        refused("rows_257", rows_257, 8, 0),
        outside("rows_most", |table| table.rows.set.m = usize::MAX),
        outside("product_wraps_to_0", |table| {
            (table.rows.set.m, table.rows.set.n) = (1 << 61, 8);
        }),
        outside("product_wraps_by_2", |table| table.rows.set.m = 1 << 63),
        refused("product_wraps_to_24", of_8, 8, 0),
        outside("channels_wrap", |table| {
            (table.rows.set.m, table.rows.set.n) = (8, 1 << 61);
        }),
    ]
}

/// Rows too short, or with a coordinate outside the limits: 8.
pub fn rows_outside() -> Vec<KnownReferenceWriting> {
    vec![
        outside("rows_short", |table| table.rows.set.places.truncate(5)),
        outside("no_places", |table| table.rows.set.places.clear()),
        outside("coordinate_4001", |table| table.rows.set.places[5] = 4_001),
        outside("coordinate_minus_4001", |table| {
            table.rows.set.places[0] = -4_001;
        }),
        outside("coordinate_largest", |table| {
            table.rows.set.places[3] = i32::MAX;
        }),
        outside("coordinate_smallest", |table| {
            table.rows.set.places[2] = i32::MIN;
        }),
    ]
}

/// Codes too few, or of no type: 8.
pub fn codes_outside() -> Vec<KnownReferenceWriting> {
    vec![
        outside("codes_short", |table| table.rows.types.truncate(1)),
        outside("no_codes", |table| table.rows.types.clear()),
        outside("code_0", |table| table.rows.types[0] = 0),
        outside("code_9", |table| table.rows.types[1] = 9),
        outside("code_255", |table| table.rows.types[1] = 255),
    ]
}

/// Ends that are not one for each row, or not those of the bytes: 8.
pub fn ends_outside() -> Vec<KnownReferenceWriting> {
    let ends = |name, ends: &[usize]| {
        let table = changed(|table| table.labels.ends = ends.to_vec());
        refused(name, table, 8, 0)
    };
    let labels = |name, labels: &[&str]| {
        let table = changed(|table| table.labels = LentLabels::of(labels));
        refused(name, table, 8, 0)
    };
    vec![
        ends("no_ends", &[]),
        labels("no_labels", &[]),
        ends("ends_2_of_3", &[1, 3]),
        labels("labels_2_of_3", &["A", "B"]),
        ends("ends_4_of_3", &[1, 2, 3, 3]),
        labels("labels_4_of_3", &["A", "B", "C", "D"]),
        ends("ends_fall_by_1", &[2, 1, 3]),
        ends("ends_fall_to_0", &[1, 0, 3]),
        ends("first_end_beyond", &[4, 2, 3]),
        ends("first_end_most", &[usize::MAX, 2, 3]),
        ends("last_end_falls", &[1, 3, 2]),
        ends("last_end_beyond", &[1, 2, 4]),
        ends("last_end_most", &[1, 2, usize::MAX]),
        ends("last_end_short", &[1, 2, 2]),
        ends("all_ends_0", &[0, 0, 0]),
        outside("no_bytes", |table| table.labels.bytes.clear()),
        outside("byte_missing", |table| {
            table.labels.bytes.pop();
        }),
        outside("byte_too_many", |table| table.labels.bytes.push(b'D')),
    ]
}

/// One row with this value under the type of this code.
fn under(code: u8, value: i32) -> LabelledRows {
    table(&[code], &[value], &["A"])
}

fn value_written(name: &'static str, code: u8, tag: &str, value: i32) -> KnownReferenceWriting {
    let text = format!("REF,1,{tag}\nA,{value}\n");
    written(name, under(code, value), text)
}

/// A value at low, at high and one beyond each, under the types whose highs are below 4,000.
pub fn values() -> Vec<KnownReferenceWriting> {
    let outside = |name, code, value| refused(name, under(code, value), 4, 2);
    vec![
        value_written("toc_low", 1, "TOC", 0),
        value_written("toc_high", 1, "TOC", 2000),
        outside("toc_below", 1, -1),
        outside("toc_2001", 1, 2001),
        value_written("tmp_low", 5, "TMP", -200),
        value_written("tmp_high", 5, "TMP", 1500),
        outside("tmp_below", 5, -201),
        outside("tmp_above", 5, 1501),
        value_written("ph_low", 6, "PH", 0),
        value_written("ph_high", 6, "PH", 1400),
        outside("ph_below", 6, -1),
        outside("ph_above", 6, 1401),
        value_written("orp_low", 8, "ORP", -2000),
        value_written("orp_high", 8, "ORP", 2000),
        outside("orp_below", 8, -2001),
        outside("orp_above", 8, 2001),
    ]
}

/// The same under the types whose highs are 4,000: one beyond is no coordinate.
pub fn values_to_4000() -> Vec<KnownReferenceWriting> {
    let below = |name, code| refused(name, under(code, -1), 4, 2);
    let above = |name, code| refused(name, under(code, 4_001), 8, 0);
    vec![
        value_written("tc_low", 2, "TC", 0),
        value_written("tc_high", 2, "TC", 4000),
        below("tc_below", 2),
        above("tc_above", 2),
        value_written("ic_low", 3, "IC", 0),
        value_written("ic_high", 3, "IC", 4000),
        below("ic_below", 3),
        above("ic_above", 3),
        value_written("cnd_low", 4, "CND", 0),
        value_written("cnd_high", 4, "CND", 4000),
        below("cnd_below", 4),
        above("cnd_above", 4),
        value_written("flw_low", 7, "FLW", 0),
        value_written("flw_high", 7, "FLW", 4000),
        below("flw_below", 7),
        above("flw_above", 7),
    ]
}

/// Values outside their ranges at the ends of what a coordinate can be, and in other places: 4.
pub fn other_values() -> Vec<KnownReferenceWriting> {
    let with = |place: usize, value| changed(|table| table.rows.set.places[place] = value);
    vec![
        refused("toc_4000", under(1, 4000), 4, 2),
        refused("toc_minus_4000", under(1, -4000), 4, 2),
        refused("toc_2001_on_row_2", with(2, 2001), 4, 3),
        refused("cnd_minus_1_on_row_3", with(5, -1), 4, 4),
    ]
}

/// One label of a single row, of every kind of length and of bytes that labels are made of.
pub fn labels() -> Vec<KnownReferenceWriting> {
    let accepted = |name, label: &str| {
        let text = format!("REF,1,TOC\n{label},7\n");
        written(name, sevens(&[label]), text)
    };
    let refused = |name, label: &[u8]| refused(name, sevens(&[label]), 3, 2);
    vec![
        refused("bytes_0", b""),
        accepted("bytes_1", "Z"),
        accepted("bytes_12", "ABCDEFGHIJ-9"),
        refused("bytes_13", b"ABCDEFGHIJ-90"),
        // 12 bytes, where a length is held in 8 bits, or in 16.
        refused("bytes_268", &[b'A'; 268]),
        refused("bytes_65548", &[b'A'; 65_548]),
        accepted("digits_alone", "0123456789"),
        accepted("hyphens_alone", "------------"),
        accepted("word_of_a_heading", "REF"),
    ]
}

/// One label of a single row, with a byte that no label has: 3.
pub fn label_bytes() -> Vec<KnownReferenceWriting> {
    let refused = |name, label: &[u8]| refused(name, sevens(&[label]), 3, 2);
    vec![
        refused("byte_10", b"A\nB"),
        refused("byte_10_last", b"A\n"),
        refused("byte_10_alone", b"\n"),
        refused("byte_0", b"A\0B"),
        refused("byte_0_last", b"A\0"),
        refused("byte_0_alone", b"\0"),
        refused("comma", b"A,B"),
        refused("comma_last", b"A,"),
        refused("comma_alone", b","),
        refused("row_within", b"A,7\nB"),
        refused("lower_case", b"a"),
        refused("blank", b"A B"),
        refused("byte_13", b"A\r"),
        refused("below", b"<A"),
        refused("quotes", b"\"A\""),
        refused("next_below_a", b"@"),
        refused("next_above_z", b"["),
        refused("next_below_0", b"/"),
        refused("next_above_9", b":"),
        refused("point", b"A.B"),
        refused("underscore", b"A_B"),
        refused("byte_127", b"\x7f"),
        refused("byte_255", b"A\xff"),
        refused("letter_of_two_bytes", "Ä".as_bytes()),
    ]
}

/// Labels of several rows: the same twice is 5, one out of form is 3 at its own line.
pub fn several_labels() -> Vec<KnownReferenceWriting> {
    let parted = |name, labels: [&str; 2]| {
        let text = format!("REF,1,TOC\n{},7\n{},7\n", labels[0], labels[1]);
        written(name, sevens(&labels), text)
    };
    vec![
        refused("twice", sevens(&["A", "A"]), 5, 3),
        refused("rows_1_and_3", sevens(&["A", "B", "A"]), 5, 4),
        refused("rows_2_and_3", sevens(&["A", "B", "B"]), 5, 4),
        refused("rows_1_and_256", relabelled(256, "R001"), 5, 257),
        refused("rows_255_and_256", relabelled(256, "R255"), 5, 257),
        refused("row_256_out_of_form", relabelled(256, "r256"), 3, 257),
        refused("row_255_empty", relabelled(255, ""), 3, 256),
        refused("first_empty", sevens(&["", "A"]), 3, 2),
        refused("last_empty", sevens(&["A", ""]), 3, 3),
        refused("empty_twice", sevens(&["", ""]), 3, 2),
        parted("parted_early", ["A", "AB"]),
        parted("parted_late", ["AA", "B"]),
        parted("one_longer", ["ABCDEFGHIJK", "ABCDEFGHIJKL"]),
        parted("last_byte_differs", ["ABCDEFGHIJKL", "ABCDEFGHIJKM"]),
        parted("first_byte_differs", ["0BCDEFGHIJKL", "-BCDEFGHIJKL"]),
    ]
}

/// Outside the limits, and faulty rows: 8.
pub fn limits_first() -> Vec<KnownReferenceWriting> {
    let with = |name, table: LabelledRows, change: fn(&mut LabelledRows)| {
        let mut table = table;
        change(&mut table);
        refused(name, table, 8, 0)
    };
    let form = || sevens(&["a", "B"]);
    let range = || table(&[1], &[2001, 7], &["A", "B"]);
    let repeated = || sevens(&["A", "A"]);
    vec![
        with("coordinate_on_a_later_row_and_form", form(), |table| {
            table.rows.set.places[1] = 4_001;
        }),
        with("coordinate_and_form_on_one_row", form(), |table| {
            table.rows.set.places[0] = -4_001;
        }),
        with("coordinate_on_a_later_row_and_range", range(), |table| {
            table.rows.set.places[1] = 4_001;
        }),
        with("coordinate_and_repeated_on_one_row", repeated(), |table| {
            table.rows.set.places[1] = 4_001;
        }),
        with("code_and_form", form(), |table| table.rows.types[0] = 9),
        with("code_and_range", range(), |table| table.rows.types[0] = 0),
        with("code_and_repeated", repeated(), |table| {
            table.rows.types.clear()
        }),
        with("ends_and_form", form(), |table| {
            table.labels.ends = vec![2, 1]
        }),
        with("ends_and_range", range(), |table| table.labels.ends.push(2)),
        with("ends_and_repeated", repeated(), |table| {
            table.labels.bytes.push(b'A');
        }),
        with("rows_short_and_form", form(), |table| {
            table.rows.set.places.pop();
        }),
    ]
}

/// Two faults on one row: 3 before 4, 4 before 5.
pub fn one_row() -> Vec<KnownReferenceWriting> {
    let two = |name, rows: &[i32], labels: &[&str], number, line| {
        refused(name, table(&[1, 6], rows, labels), number, line)
    };
    vec![
        two("form_and_first_value", &[2001, 0], &["a"], 3, 2),
        two("form_and_last_value", &[0, 1401], &[""], 3, 2),
        two("two_values", &[2001, 1401], &["A"], 4, 2),
        two("value_and_label_twice", &[0, 0, -1, 0], &["A", "A"], 4, 3),
        two(
            "last_value_and_label_twice",
            &[0, 0, 0, -1],
            &["A", "A"],
            4,
            3,
        ),
        two("form_twice", &[0, 0, 0, 0], &["a", "a"], 3, 2),
        two(
            "form_and_values_twice",
            &[0, -1, 0, -1],
            &["A,B", "A,B"],
            3,
            2,
        ),
    ]
}

/// Faults on two rows: the earlier row's is given.
pub fn two_rows() -> Vec<KnownReferenceWriting> {
    let two = |name, rows: &[i32], labels: &[&str], number, line| {
        refused(name, table(&[1], rows, labels), number, line)
    };
    vec![
        two("form_then_form", &[7, 7], &["a", "b"], 3, 2),
        two("form_then_range", &[7, -1], &["a", "B"], 3, 2),
        two("range_then_form", &[-1, 7], &["A", "b"], 4, 2),
        two("range_then_range", &[-1, -1], &["A", "B"], 4, 2),
        two("form_then_repeated", &[7, 7, 7], &["A", "b", "A"], 3, 3),
        two("repeated_then_form", &[7, 7, 7], &["A", "A", "b"], 5, 3),
        two("range_then_repeated", &[7, -1, 7], &["A", "B", "A"], 4, 3),
        two(
            "range_on_the_first_then_repeated",
            &[-1, 7],
            &["A", "A"],
            4,
            2,
        ),
        two("repeated_then_range", &[7, 7, -1], &["A", "A", "B"], 5, 3),
        two("repeated_then_repeated", &[7, 7, 7], &["A", "A", "A"], 5, 3),
    ]
}

/// Buffers of every kind of length: 13 where the text has more bytes, after every other refusal.
pub fn rooms() -> Vec<KnownReferenceWriting> {
    let room = |name, places, outcome: Result<&str, u32>| KnownReferenceWriting {
        places,
        outcome: outcome
            .map(Vec::from)
            .map_err(|number| Refusal { number, line: 0 }),
        ..written(name, document(), "")
    };
    let refused_in = |name, table, places, number, line| KnownReferenceWriting {
        places,
        ..refused(name, table, number, line)
    };
    let longest = longest_text();
    let one_short = refused_in("longest_one_short", longest.table.clone(), ROOM - 1, 13, 0);
    let code_9 = changed(|table| table.rows.types[0] = 9);
    vec![
        room("places_0", 0, Err(13)),
        room("places_1", 1, Err(13)),
        room("heading_alone", 14, Err(13)),
        room("one_short", TEXT.len() - 1, Err(13)),
        room("exact", TEXT.len(), Ok(TEXT)),
        room("one_more", TEXT.len() + 1, Ok(TEXT)),
        one_short,
        refused_in("limits_and_places_0", code_9, 0, 8, 0),
        refused_in("form_and_places_0", sevens(&["a"]), 0, 3, 2),
        refused_in("range_and_places_0", under(1, 2001), 0, 4, 2),
        refused_in("repeated_and_places_0", sevens(&["A", "A"]), 0, 5, 3),
        refused_in("repeated_and_one_short", sevens(&["A", "A"]), 17, 5, 3),
    ]
}

/// Every list.
pub fn all() -> Vec<KnownReferenceWriting> {
    [
        examples(),
        at_the_limits(),
        past_the_counts(),
        counts_outside(),
        rows_outside(),
        codes_outside(),
        ends_outside(),
        values(),
        values_to_4000(),
        other_values(),
        labels(),
        label_bytes(),
        several_labels(),
        limits_first(),
        one_row(),
        two_rows(),
        rooms(),
    ]
    .concat()
}
