//! The texts that document 01 and the list of bad input name, with the answers that the rules give,
//! written down by hand.

use crate::reference::{Part, Reference, Row, TEXT_LIMIT};
use crate::rules::Refusal;

/// A text by name, and what reading it gives.
#[derive(Clone, Debug)]
pub struct KnownText {
    pub name: &'static str,
    pub text: Vec<u8>,
    pub outcome: Result<Reference, Refusal>,
}

fn refused(name: &'static str, text: impl Into<Vec<u8>>, number: u32, line: u32) -> KnownText {
    KnownText {
        name,
        text: text.into(),
        outcome: Err(Refusal { number, line }),
    }
}

/// Each row is where its label starts, how many bytes that has, and what the values read as.
fn accepted(
    name: &'static str,
    text: impl Into<Vec<u8>>,
    types: &[u8],
    rows: &[(usize, usize, &[i32])],
) -> KnownText {
    let row = |&(start, length, values): &(usize, usize, &[i32])| Row {
        label: Part { start, length },
        values: values.to_vec(),
    };
    KnownText {
        name,
        text: text.into(),
        outcome: Ok(Reference {
            types: types.to_vec(),
            rows: rows.iter().map(row).collect(),
        }),
    }
}

/// One row labelled A with this value, under TOC. The label stands at byte 10.
fn under_toc(value: &str) -> String {
    format!("REF,1,TOC\nA,{value}\n")
}

fn toc_refused(name: &'static str, value: &str, number: u32) -> KnownText {
    refused(name, under_toc(value), number, 2)
}

fn toc_reads(name: &'static str, value: &str, reads: i32) -> KnownText {
    accepted(name, under_toc(value), &[1], &[(10, 1, &[reads])])
}

/// A text of one row whose value has as many digits as the length asks for.
fn of_length(length: usize) -> String {
    let rest = under_toc("").len();
    under_toc(&"1".repeat(length - rest))
}

/// A heading and rows of 7 bytes each, labelled R001 and on, with the value 7.
fn rows_of_seven_bytes(m: usize) -> String {
    let row = |number: usize| format!("R{number:03},7\n");
    String::from("REF,1,TOC\n") + &(1..=m).map(row).collect::<String>()
}

/// The examples of document 01.
pub fn examples() -> Vec<KnownText> {
    vec![
        accepted(
            "record",
            "REF,2,TOC,CND\nA,0,0\nB,6,0\nC,0,8\n",
            &[1, 4],
            &[(14, 1, &[0, 0]), (20, 1, &[6, 0]), (26, 1, &[0, 8])],
        ),
        refused("tags_of_two", "REF,2,TOC\nA,1,1\n", 2, 1),
        toc_refused("value_05", "05", 3),
        toc_refused("value_2001", "2001", 4),
        refused("label_twice", "REF,1,TOC\nA,1\nA,2\n", 5, 3),
        refused("heading_alone", "REF,1,TOC\n", 6, 2),
    ]
}

/// The trial figures of texts.
pub fn trials() -> Vec<KnownText> {
    let rows: Vec<(usize, usize, &[i32])> =
        (0..256).map(|row| (10 + 7 * row, 4, &[7][..])).collect();
    vec![
        toc_reads("toc_2000", "2000", 2000),
        toc_refused("toc_2001", "2001", 4),
        accepted("row_256", rows_of_seven_bytes(256), &[1], &rows),
        refused("row_257", rows_of_seven_bytes(257), 6, 258),
    ]
}

pub fn lengths() -> Vec<KnownText> {
    vec![
        refused("empty_text", "", 1, 0),
        refused("bytes_65536", of_length(TEXT_LIMIT), 4, 2),
        refused("bytes_65537", of_length(TEXT_LIMIT + 1), 1, 0),
    ]
}

pub fn headings() -> Vec<KnownText> {
    let nine = "REF,9,PH,PH,PH,PH,PH,PH,PH,PH,PH\nA,1,1,1,1,1,1,1,1,1\n";
    let heading = |name, text| refused(name, text, 2, 1);
    vec![
        heading("heading_without_end", "REF,1,TOC"),
        heading("channels_0", "REF,0\nA\n"),
        heading("channels_9", nine),
        heading("channels_01", "REF,01,TOC\nA,1\n"),
        heading(
            "channels_above_64_bits",
            "REF,18446744073709551617,TOC\nA,1\n",
        ),
        heading("tag_too_few", "REF,2,TOC\nA,1,1\n"),
        heading("tag_too_many", "REF,1,TOC,PH\nA,1\n"),
        heading("tag_lower_case", "REF,1,toc\nA,1\n"),
        heading("tag_and_byte_13", "REF,1,TOC\r\nA,1\n"),
        heading("word_lower_case", "ref,1,TOC\nA,1\n"),
        heading("heading_empty", "\nA,1\n"),
    ]
}

pub fn values() -> Vec<KnownText> {
    vec![
        toc_refused("minus_0", "-0", 3),
        toc_refused("leading_0", "05", 3),
        toc_refused("plus_1", "+1", 3),
        toc_refused("blank_after_1", "1 ", 3),
        toc_refused("value_empty", "", 3),
        toc_refused("below_alone", "<", 3),
        toc_refused("below_twice", "<<1", 3),
        toc_refused("below_0", "<0", 4),
        toc_refused("below_minus_1", "<-1", 4),
        toc_refused("below_leading_0", "<05", 3),
        toc_reads("plain_0", "0", 0),
        toc_refused("minus_1", "-1", 4),
        toc_reads("plain_2000", "2000", 2000),
        toc_refused("plain_2001", "2001", 4),
        toc_reads("below_1", "<1", 0),
        toc_reads("below_2", "<2", 1),
        toc_reads("below_3", "<3", 1),
        toc_reads("below_50", "<50", 25),
        toc_reads("below_51", "<51", 25),
        toc_reads("below_52", "<52", 26),
        toc_reads("below_1999", "<1999", 999),
        toc_reads("below_2000", "<2000", 1000),
        toc_refused("below_2001", "<2001", 4),
        toc_refused("above_32_bits", "4294967297", 4),
        toc_refused("above_64_bits", "18446744073709551617", 4),
    ]
}

pub(crate) const EVERY_TYPE: &str = "REF,8,TOC,TC,IC,CND,TMP,PH,FLW,ORP\n";
pub(crate) const LOW: &str = "LOW,0,0,0,0,-200,0,0,-2000\n";
pub(crate) const HIGH: &str = "HIGH,2000,4000,4000,4000,1500,1400,4000,2000\n";
pub(crate) const BELOW: &str = "BELOW,<2000,<4000,<4000,<4000,<1500,<1400,<4000,<2000\n";
pub(crate) const BELOW_ODD: &str = "ODD,<1999,<3999,<3999,<3999,<1499,<1399,<3999,<1999\n";

/// The ends of every range: the heading has 35 bytes, the rows 27, 45, 54 and 52.
fn ends_of_every_range() -> KnownText {
    let rows: [(usize, usize, &[i32]); 4] = [
        (35, 3, &[0, 0, 0, 0, -200, 0, 0, -2000]),
        (62, 4, &[2000, 4000, 4000, 4000, 1500, 1400, 4000, 2000]),
        (107, 5, &[1000, 2000, 2000, 2000, 750, 700, 2000, 1000]),
        (161, 3, &[999, 1999, 1999, 1999, 749, 699, 1999, 999]),
    ];
    let text = [EVERY_TYPE, LOW, HIGH, BELOW, BELOW_ODD].concat();
    let types = [1, 2, 3, 4, 5, 6, 7, 8];
    accepted("ends_of_every_range", text, &types, &rows)
}

/// No accepted text has more bytes: the heading has 38, each of the 256 rows 61.
fn largest_accepted() -> KnownText {
    let row =
        |row: usize| format!("POINT-{row:06},<4000,<3999,<2000,<1999,-2000,-1999,-1000,-1234\n");
    let heading = String::from("REF,8,CND,FLW,CND,FLW,ORP,ORP,ORP,ORP\n");
    let text = heading + &(0..256).map(row).collect::<String>();
    let values = &[2000, 1999, 1000, 999, -2000, -1999, -1000, -1234][..];
    let rows: Vec<(usize, usize, &[i32])> =
        (0..256).map(|row| (38 + 61 * row, 12, values)).collect();
    accepted("largest_accepted", text, &[4, 7, 4, 7, 8, 8, 8, 8], &rows)
}

pub fn largest() -> Vec<KnownText> {
    vec![ends_of_every_range(), largest_accepted()]
}

/// A value just outside its range under every type, on each side, plain and below detection.
pub fn just_outside() -> Vec<(&'static str, &'static str)> {
    vec![
        ("TOC", "-1"),
        ("TOC", "2001"),
        ("TOC", "<2001"),
        ("TC", "-1"),
        ("TC", "4001"),
        ("TC", "<4001"),
        ("IC", "-1"),
        ("IC", "4001"),
        ("IC", "<4001"),
        ("CND", "-1"),
        ("CND", "4001"),
        ("CND", "<4001"),
        ("TMP", "-201"),
        ("TMP", "1501"),
        ("TMP", "<1501"),
        ("PH", "-1"),
        ("PH", "1401"),
        ("PH", "<1401"),
        ("FLW", "-1"),
        ("FLW", "4001"),
        ("FLW", "<4001"),
        ("ORP", "-2001"),
        ("ORP", "2001"),
        ("ORP", "<2001"),
    ]
}

pub fn labels() -> Vec<KnownText> {
    let labelled = |label: &[u8]| [b"REF,1,TOC\n", label, b",1\n"].concat();
    let refused = |name, label: &[u8]| refused(name, labelled(label), 3, 2);
    vec![
        refused("label_0_bytes", b""),
        accepted(
            "label_12_bytes",
            labelled(b"ABCDEFGHIJ-9"),
            &[1],
            &[(10, 12, &[1])],
        ),
        refused("label_13_bytes", b"ABCDEFGHIJ-90"),
        refused("label_lower_case", b"a"),
        refused("label_above_127", b"A\xC4"),
    ]
}

pub fn lines() -> Vec<KnownText> {
    vec![
        refused("byte_13", "REF,1,TOC\nA,1\r\n", 3, 2),
        refused("empty_line", "REF,1,TOC\n\nA,1\n", 3, 2),
        refused("empty_line_at_the_end", "REF,1,TOC\nA,1\n\n", 3, 3),
        refused("field_too_many", "REF,1,TOC\nA,1,1\n", 3, 2),
        refused("comma_at_the_end", "REF,1,TOC\nA,1,\n", 3, 2),
        refused("field_too_few", "REF,1,TOC\nA\n", 3, 2),
        refused("one_field_of_two", "REF,2,TOC,PH\nA,1\n", 3, 2),
        refused("row_without_end", "REF,1,TOC\nA,1\nB,1", 3, 3),
    ]
}

/// A 257th row that is not in form, and more.
pub fn row_counts() -> Vec<KnownText> {
    let full = rows_of_seven_bytes(256);
    let followed = |name, by: &str| refused(name, format!("{full}{by}"), 6, 258);
    vec![
        followed("row_257_out_of_form", "r,05,\n"),
        followed("row_257_out_of_range", "R257,2001\n"),
        followed("row_257_repeated", "R001,7\n"),
        followed("row_257_empty", "\n"),
        followed("row_257_without_end", "R257,7"),
    ]
}

/// Two faults at once.
pub fn orders() -> Vec<KnownText> {
    let full = rows_of_seven_bytes(257);
    vec![
        refused(
            "repeated_and_out_of_range",
            "REF,1,TOC\nA,1\nA,2001\n",
            4,
            3,
        ),
        refused("repeated_and_out_of_form", "REF,1,TOC\nA,1\nA,05\n", 3, 3),
        refused("repeated_without_end", "REF,1,TOC\nA,1\nA,1", 3, 3),
        refused("out_of_range_then_form", "REF,2,TOC,PH\nA,2001,05\n", 3, 2),
        refused(
            "range_line_before_form_line",
            "REF,1,TOC\nA,2001\nB,05\n",
            4,
            2,
        ),
        refused(
            "form_line_before_range_line",
            "REF,1,TOC\nA,05\nB,2001\n",
            3,
            2,
        ),
        refused(
            "repeated_before_range_line",
            "REF,1,TOC\nA,1\nA,1\nB,2001\n",
            5,
            3,
        ),
        refused(
            "range_line_before_repeated",
            "REF,1,TOC\nA,1\nB,2001\nA,1\n",
            4,
            3,
        ),
        refused(
            "fault_before_row_257",
            full.replace("R256,7", "R256,07"),
            3,
            257,
        ),
        refused(
            "repeated_before_row_257",
            full.replace("R256", "R001"),
            5,
            257,
        ),
        refused("heading_before_row", "REF,1,toc\nA,05\n", 2, 1),
    ]
}

/// Every list.
pub fn all() -> Vec<KnownText> {
    [
        trials(),
        examples(),
        lengths(),
        headings(),
        values(),
        largest(),
        labels(),
        lines(),
        row_counts(),
        orders(),
    ]
    .concat()
}
