//! Texts of the programs that document 01 names, of every refusal and at every edge of a text, with
//! the outputs that the rules give, written down by hand.

use crate::drawn_as_0::{self, Redrawn};
use crate::known_alerts;
use crate::known_records::{RECORD, RECORD_BUDGET_1, ROWS_0_10};
use crate::known_texts::{BELOW, BELOW_ODD, EVERY_TYPE, HIGH, LOW};
use crate::programs::{PROGRAMS, Program, TextKind, Texts};
use crate::reference::TEXT_LIMIT;

/// By name, the programs with the texts of each, and what all of them print.
#[derive(Clone, Debug)]
pub struct KnownInput {
    pub name: &'static str,
    pub runs: Vec<(Program, Texts)>,
    pub output: Vec<u8>,
}

/// Document 01's reference text: the centre is (3, 4) and the radius is 5.
pub const REFERENCE: &str = "REF,2,TOC,CND\nA,0,0\nB,6,0\nC,0,8\n";
/// A reading of the centre.
const READING: &str = "LOOP-1,TOC,3,CND,4\n";
/// Alert settings within the rules.
const SETTINGS: &str = "1,1\n";
/// Many times the limit on a text.
const MEGABYTES: usize = 3 << 20;

/// The rows 0 and 10 with their record: the centre is 5 and the radius is 5.
const HONEST_REFERENCE: &str = "REF,1,TOC\nA,0\nB,10\n";
const HONEST_RECORD: &str = ROWS_0_10;
/// A stranger's rows 0 and 1000 with their record: the centre is 500 and the radius is 500.
const WIDE_REFERENCE: &str = "REF,1,TOC\nA,0\nB,1000\n";
const WIDE_RECORD: &str = "ENV,1,TOC\nC,32768000\n\
    R,1073741824000000,1073741824000000,1,S\n\
    W,1,32768\nW,2,32768\n";
/// A reading in the wide ball, far outside the honest one.
const READING_900: &str = "A,TOC,900\n";

/// The programs that read a record.
const READERS: [Program; 4] = [
    Program::Verify,
    Program::Judge,
    Program::Panel,
    Program::Alerts,
];

/// The same texts of several programs: each takes those that it reads, and settings within the rules.
fn known_of(
    programs: &[Program],
    name: &'static str,
    [reference, record, readings]: [&str; 3],
    output: &str,
) -> KnownInput {
    let run = |&program: &Program| {
        let text = |kind: &TextKind| match kind {
            TextKind::Reference => reference,
            TextKind::Record => record,
            TextKind::Settings => SETTINGS,
            TextKind::Readings => readings,
        };
        let texts = program.kinds().iter().map(text);
        (program, texts.map(Vec::from).collect())
    };
    KnownInput {
        name,
        runs: programs.iter().map(run).collect(),
        output: output.into(),
    }
}

/// A reference text of every program, with document 01's record and a reading.
fn of_reference(name: &'static str, reference: &str, output: &str) -> KnownInput {
    known_of(&PROGRAMS, name, [reference, RECORD, READING], output)
}

/// Two texts of the programs that read a record, with a reading for `judge`.
fn two_texts(name: &'static str, reference: &str, record: &str, output: &str) -> KnownInput {
    known_of(&READERS, name, [reference, record, READING], output)
}

/// A record of document 01's reference text.
fn of_record(name: &'static str, record: &str, output: &str) -> KnownInput {
    two_texts(name, REFERENCE, record, output)
}

/// A reference text that is drawn.
fn drawn(name: &'static str, reference: &str, output: &str) -> KnownInput {
    known_of(&[Program::Draw], name, [reference, "", ""], output)
}

/// A reference text that is written anew.
fn rewritten(name: &'static str, reference: &str, output: &str) -> KnownInput {
    known_of(&[Program::Plain], name, [reference, "", ""], output)
}

/// The three texts of `judge`.
fn three_texts(name: &'static str, texts: [&str; 3], output: &str) -> KnownInput {
    known_of(&[Program::Judge], name, texts, output)
}

/// The readings of document 01's record, with the verdicts on them.
fn judged(name: &'static str, readings: &str, output: &str) -> KnownInput {
    three_texts(name, [REFERENCE, RECORD, readings], output)
}

/// Texts joined as one, with an empty line between two of them.
fn joined(texts: &[&str]) -> String {
    texts.join("\n")
}

/// One row labelled A with this value, under TOC.
fn under_toc(value: &str) -> String {
    format!("REF,1,TOC\nA,{value}\n")
}

/// A row for each label from R001, with the value 7.
fn rows(m: usize) -> String {
    let row = |number: usize| format!("R{number:03},7\n");
    String::from("REF,1,TOC\n") + &(1..=m).map(row).collect::<String>()
}

/// A reference text of so many bytes, whose one value is out of range: 4 at line 2.
fn reference_of_length(length: usize) -> String {
    under_toc(&"1".repeat(length - under_toc("").len()))
}

/// A record of so many bytes, whose second line is out of form: 11 there.
fn record_of_length(length: usize) -> String {
    let digits = "1".repeat(length - RECORD.len());
    RECORD.replace("\nC,", &format!("\nC,{digits}"))
}

/// So many bytes of readings that are Quiet, the last line cut off where the length asks for it.
fn readings_of_length(length: usize) -> String {
    let mut text = READING.repeat(length / READING.len() + 1);
    text.truncate(length);
    text
}

/// One reading of so many bytes, its last value out of range.
fn long_reading(length: usize) -> String {
    let digits = "1".repeat(length - READING.len());
    READING.replace("4\n", &format!("4{digits}\n"))
}

pub fn examples() -> Vec<KnownInput> {
    let one_row = "ENV,1,TOC\nC,327680\nR,0,0,0,S\nW,1,65536\n";
    let five = under_toc("5");
    let verified = |name, reference: &str, record: &str| {
        let texts = [reference, record, ""];
        known_of(&[Program::Verify], name, texts, "OK\n")
    };
    let shown = |name, reference: &str, record: &str, output: &str| {
        known_of(&[Program::Panel], name, [reference, record, ""], output)
    };
    vec![
        drawn("draw_record", REFERENCE, RECORD),
        drawn("draw_rows_0_10", HONEST_REFERENCE, HONEST_RECORD),
        drawn("draw_one_row", &five, one_row),
        drawn("draw_rows_5_5", "REF,1,TOC\nA,5\nB,5\n", one_row),
        verified("verify_record", REFERENCE, RECORD),
        verified("verify_budget_1", REFERENCE, RECORD_BUDGET_1),
        verified("verify_one_row", &five, one_row),
        shown("panel_record", REFERENCE, RECORD, "TOC,3\nCND,4\n"),
        shown(
            "panel_budget_1",
            REFERENCE,
            RECORD_BUDGET_1,
            "TOC,0\nCND,4\n",
        ),
        shown("panel_one_row", &five, one_row, "TOC,5\n"),
        judged("judge_record", READING, "QUIET\n"),
        rewritten("plain_record", REFERENCE, REFERENCE),
        rewritten("plain_below_5", &under_toc("<5"), &under_toc("2")),
        known_of(
            &[Program::Alerts],
            "alerts_record",
            [REFERENCE, RECORD, READING],
            "1,1,0,0\n1,0,1,0\n",
        ),
    ]
}

/// Reference texts written anew: as they are, but for values below detection.
pub fn rewritings() -> Vec<KnownInput> {
    let halves = "BELOW,1000,2000,2000,2000,750,700,2000,1000\n";
    let odd_halves = "ODD,999,1999,1999,1999,749,699,1999,999\n";
    let ends = [EVERY_TYPE, LOW, HIGH, BELOW, BELOW_ODD].concat();
    let ends_plain = [EVERY_TYPE, LOW, HIGH, halves, odd_halves].concat();
    let mixed = "REF,2,TOC,CND\nA,<1,7\nB,7,<1\nC,<7,<1\nD,0,0\n";
    let same = |name, text: &str| rewritten(name, text, text);
    vec![
        same("zero", &under_toc("0")),
        same("toc_2000", &under_toc("2000")),
        same("negative", "REF,1,ORP\nA,-1\n"),
        same("rows_256", &rows(256)),
        same("tag_twice", "REF,2,PH,PH\nA,1,2\n"),
        same("label_of_12_bytes", "REF,1,PH\nABCDEFGHIJ-9,1\n"),
        same("label_ref", "REF,1,PH\nREF,1\n"),
        same("label_no", "REF,2,PH,TC\nA,3,1\nNO,13,0\n"),
        rewritten("below_1", &under_toc("<1"), &under_toc("0")),
        rewritten("below_2", &under_toc("<2"), &under_toc("1")),
        rewritten("below_50", &under_toc("<50"), &under_toc("25")),
        rewritten("below_51", &under_toc("<51"), &under_toc("25")),
        rewritten("below_1999", &under_toc("<1999"), &under_toc("999")),
        rewritten("below_2000", &under_toc("<2000"), &under_toc("1000")),
        rewritten(
            "below_among_values",
            mixed,
            "REF,2,TOC,CND\nA,0,7\nB,7,0\nC,3,0\nD,0,0\n",
        ),
        rewritten("ends_of_every_range", &ends, &ends_plain),
        longest_rewriting(),
    ]
}

/// The longest reference text that is written: 38 bytes of heading, and 61 for each row.
fn longest_rewriting() -> KnownInput {
    let row = |number: usize| format!("POINT-{number:06}{}\n", ",-2000".repeat(8));
    let heading = format!("REF,8{}\n", ",ORP".repeat(8));
    let text = heading + &(0..256).map(row).collect::<String>();
    assert_eq!(text.len(), 15_654);
    rewritten("longest", &text, &text)
}

/// Halves away from zero, on the panel.
pub fn halves() -> Vec<KnownInput> {
    let shown = |name, (tag, low, high): (&str, i32, i32), output| {
        let reference = format!("REF,1,{tag}\nA,{low}\nB,{high}\n");
        let centre = 32_768 * (low + high);
        let radius = i64::from(32_768 * (high - low)).pow(2);
        let weights = "W,1,32768\nW,2,32768\n";
        let record = format!("ENV,1,{tag}\nC,{centre}\nR,{radius},{radius},1,S\n{weights}");
        known_of(&[Program::Panel], name, [&reference, &record, ""], output)
    };
    vec![
        shown("half", ("PH", 0, 1), "PH,1\n"),
        shown("minus_half", ("ORP", -1, 0), "ORP,-1\n"),
        shown("minus_one_and_a_half", ("TMP", -3, 0), "TMP,-2\n"),
        shown("zero", ("ORP", -7, 7), "ORP,0\n"),
        shown("highest", ("FLW", 3999, 4000), "FLW,4000\n"),
    ]
}

/// The refusals of the reference text, the same in each program.
pub fn reference_refusals() -> Vec<KnownInput> {
    let without_end = REFERENCE.trim_end();
    vec![
        of_reference("nothing", "", "NO,1,0\n"),
        of_reference("one_byte", "R", "NO,2,1\n"),
        of_reference("heading", "REF,2,TOC\nA,1,1\n", "NO,2,1\n"),
        of_reference("heading_without_end", "REF,1,TOC", "NO,2,1\n"),
        of_reference("form", &under_toc("05"), "NO,3,2\n"),
        of_reference("row_without_end", without_end, "NO,3,4\n"),
        of_reference("range", &under_toc("2001"), "NO,4,2\n"),
        of_reference("label_twice", "REF,1,TOC\nA,1\nA,2\n", "NO,5,3\n"),
        of_reference("no_row", "REF,1,TOC\n", "NO,6,2\n"),
        of_reference("row_257", &rows(257), "NO,6,258\n"),
        of_reference("line_of_byte_13", &format!("{REFERENCE}\r\n"), "NO,3,5\n"),
        of_reference("line_of_a_blank", &format!("{REFERENCE} \n"), "NO,3,5\n"),
    ]
}

/// A reference text with an empty line, which is a line out of form like any other.
pub fn reference_empty_lines() -> Vec<KnownInput> {
    let first = format!("\n{REFERENCE}");
    let behind_heading = REFERENCE.replacen("\n", "\n\n", 1);
    let within = REFERENCE.replace("\nB", "\n\nB");
    let twice = REFERENCE.replace("\nB", "\n\n\nB");
    vec![
        of_reference("alone", "\n", "NO,2,1\n"),
        of_reference("nine_alone", &"\n".repeat(9), "NO,2,1\n"),
        of_reference("first", &first, "NO,2,1\n"),
        of_reference("behind_heading", &behind_heading, "NO,3,2\n"),
        of_reference("within", &within, "NO,3,3\n"),
        of_reference("twice_within", &twice, "NO,3,3\n"),
        of_reference("last", &format!("{REFERENCE}\n"), "NO,3,5\n"),
        of_reference("behind_heading_alone", "REF,1,TOC\n\n", "NO,3,2\n"),
        of_reference("as_row_256", &format!("{}\n", rows(255)), "NO,3,257\n"),
        of_reference("as_row_257", &format!("{}\n", rows(256)), "NO,6,258\n"),
    ]
}

/// The refusals of the record, the same in each program that reads one.
pub fn record_refusals() -> Vec<KnownInput> {
    let changed =
        |name, from: &str, to: &str, output| of_record(name, &RECORD.replace(from, to), output);
    vec![
        of_record("nothing", "", "NO,1,0\n"),
        of_record("one_byte", "E", "NO,11,1\n"),
        changed("form_1", "ENV", "REF", "NO,11,1\n"),
        changed("form_2", "C,1", "C,01", "NO,11,2\n"),
        changed("form_3", ",S", ",s", "NO,11,3\n"),
        changed("form_5", "W,3", "W,2", "NO,11,5\n"),
        of_record("without_end", RECORD.trim_end(), "NO,11,5\n"),
        of_record("line_of_byte_13", &format!("{RECORD}\r\n"), "NO,11,6\n"),
        changed("letter", ",S", ",B", "NO,12,0\n"),
        changed("tags", "CND", "TC", "NO,12,0\n"),
        changed("row_4", "W,3", "W,4", "NO,12,0\n"),
        two_texts("of_other_rows", &rows(256), RECORD, "NO,12,0\n"),
    ]
}

/// A record with an empty line, and with a reading behind it.
pub fn record_empty_lines() -> Vec<KnownInput> {
    let first = format!("\n{RECORD}");
    let within = RECORD.replace("\nR", "\n\nR");
    let before_weights = RECORD.replacen("\nW", "\n\nW", 1);
    vec![
        of_record("alone", "\n", "NO,11,1\n"),
        of_record("first", &first, "NO,11,1\n"),
        of_record("within", &within, "NO,11,3\n"),
        of_record("before_weights", &before_weights, "NO,11,4\n"),
        of_record("last", &format!("{RECORD}\n"), "NO,11,6\n"),
        of_record("then_reading", &joined(&[RECORD, READING]), "NO,11,6\n"),
        of_record(
            "reading_without_it",
            &format!("{RECORD}{READING}"),
            "NO,11,6\n",
        ),
    ]
}

/// Texts that a stranger has put into another text.
pub fn embedded() -> Vec<KnownInput> {
    let of_stranger = |name, reference: &str, output: &str| {
        known_of(
            &PROGRAMS,
            name,
            [reference, HONEST_RECORD, READING_900],
            output,
        )
    };
    let with_record = joined(&[WIDE_REFERENCE, WIDE_RECORD]);
    let with_both = joined(&[WIDE_REFERENCE, WIDE_RECORD, READING_900]);
    let with_readings = joined(&[HONEST_REFERENCE, "A,TOC,5\n"]);
    let own_record = joined(&[HONEST_REFERENCE, HONEST_RECORD]);
    let two_references = joined(&[WIDE_REFERENCE, HONEST_REFERENCE]);
    let empty_line_first = format!("\n{with_record}");
    let record_behind = format!("{WIDE_REFERENCE}{WIDE_RECORD}");
    let in_record = |name, record: &str| {
        let texts = [HONEST_REFERENCE, record, READING_900];
        known_of(&READERS, name, texts, "NO,11,6\n")
    };
    vec![
        of_stranger("record_in_reference", &with_record, "NO,3,4\n"),
        of_stranger("record_and_readings_in_reference", &with_both, "NO,3,4\n"),
        of_stranger("readings_in_reference", &with_readings, "NO,3,4\n"),
        of_stranger("own_record_in_reference", &own_record, "NO,3,4\n"),
        of_stranger("reference_in_reference", &two_references, "NO,3,4\n"),
        of_stranger(
            "record_behind_empty_line_first",
            &empty_line_first,
            "NO,2,1\n",
        ),
        of_stranger("record_without_empty_line", &record_behind, "NO,3,4\n"),
        in_record("readings_in_record", &joined(&[HONEST_RECORD, "A,TOC,5\n"])),
        in_record("record_in_record", &joined(&[HONEST_RECORD, WIDE_RECORD])),
        in_record(
            "reference_in_record",
            &joined(&[HONEST_RECORD, WIDE_REFERENCE]),
        ),
    ]
}

/// The same balls without an embedded text.
pub fn strangers_balls() -> Vec<KnownInput> {
    vec![
        three_texts(
            "wide",
            [WIDE_REFERENCE, WIDE_RECORD, READING_900],
            "QUIET\n",
        ),
        three_texts(
            "honest",
            [HONEST_REFERENCE, HONEST_RECORD, READING_900],
            "ALARM,3440268804096000\n",
        ),
        known_of(
            &READERS,
            "wide_record_of_honest_rows",
            [HONEST_REFERENCE, WIDE_RECORD, READING_900],
            "NO,12,0\n",
        ),
        known_of(
            &READERS,
            "honest_record_of_wide_rows",
            [WIDE_REFERENCE, HONEST_RECORD, READING_900],
            "NO,12,0\n",
        ),
    ]
}

/// Texts in another's place.
pub fn exchanged() -> Vec<KnownInput> {
    let form = "NO,3,1\n";
    vec![
        two_texts("record_and_reference", RECORD, REFERENCE, "NO,2,1\n"),
        three_texts(
            "readings_and_record",
            [REFERENCE, READING, RECORD],
            "NO,11,1\n",
        ),
        three_texts(
            "readings_and_reference",
            [READING, RECORD, REFERENCE],
            "NO,2,1\n",
        ),
        three_texts("each_one_back", [RECORD, READING, REFERENCE], "NO,2,1\n"),
        three_texts("each_one_on", [READING, REFERENCE, RECORD], "NO,2,1\n"),
        two_texts("reference_twice", REFERENCE, REFERENCE, "NO,11,1\n"),
        two_texts("record_twice", RECORD, RECORD, "NO,2,1\n"),
        judged("reference_as_readings", REFERENCE, &form.repeat(4)),
        judged("record_as_readings", RECORD, &form.repeat(5)),
        three_texts("readings_twice", [REFERENCE, READING, READING], "NO,11,1\n"),
        three_texts("reference_three_times", [REFERENCE; 3], "NO,11,1\n"),
        three_texts("readings_three_times", [READING; 3], "NO,2,1\n"),
    ]
}

/// Of several refused texts the first is told.
pub fn several_refused() -> Vec<KnownInput> {
    let (heading, form) = ("REF,9\n", "ENV,9\n");
    let disagrees = RECORD.replace(",S", ",B");
    vec![
        two_texts("both_headings", heading, form, "NO,2,1\n"),
        two_texts("heading_then_no_record", heading, "", "NO,2,1\n"),
        two_texts("no_reference_then_form", "", form, "NO,1,0\n"),
        three_texts("nothing_at_all", ["", "", ""], "NO,1,0\n"),
        three_texts("form_then_no_readings", [REFERENCE, form, ""], "NO,11,1\n"),
        three_texts("no_record_then_form", [REFERENCE, "", "\n"], "NO,1,0\n"),
        three_texts(
            "disagreement_then_no_readings",
            [REFERENCE, &disagrees, ""],
            "NO,12,0\n",
        ),
    ]
}

/// Reference texts and records as long as the limit and one byte longer.
pub fn lengths() -> Vec<KnownInput> {
    let [reference, longer] = [TEXT_LIMIT, TEXT_LIMIT + 1].map(reference_of_length);
    let [record, longer_record] = [TEXT_LIMIT, TEXT_LIMIT + 1].map(record_of_length);
    let [empty, more_empty] = [TEXT_LIMIT, TEXT_LIMIT + 1].map(|count| "\n".repeat(count));
    let without_end = format!("{}1", reference.trim_end());
    assert_eq!(without_end.len(), TEXT_LIMIT);
    vec![
        of_reference("reference_65536", &reference, "NO,4,2\n"),
        of_reference("reference_65537", &longer, "NO,1,0\n"),
        of_reference("reference_65536_without_end", &without_end, "NO,3,2\n"),
        of_reference("reference_of_empty_lines_65536", &empty, "NO,2,1\n"),
        of_reference("reference_of_empty_lines_65537", &more_empty, "NO,1,0\n"),
        of_record("record_65536", &record, "NO,11,2\n"),
        of_record("record_65537", &longer_record, "NO,1,0\n"),
        of_record("record_of_empty_lines_65536", &empty, "NO,11,1\n"),
        of_record("record_of_empty_lines_65537", &more_empty, "NO,1,0\n"),
        two_texts("both_65536", &reference, &record, "NO,4,2\n"),
        two_texts("both_65537", &longer, &longer_record, "NO,1,0\n"),
        two_texts("heading_then_65537", "REF,9\n", &longer_record, "NO,2,1\n"),
        three_texts(
            "form_then_65537",
            [REFERENCE, "ENV\n", &more_empty],
            "NO,11,1\n",
        ),
    ]
}

/// Verdicts on readings of document 01's record.
pub fn verdicts() -> Vec<KnownInput> {
    let every = "A,TOC,3,CND,9\nA,TOC,3,CND,10\nA,TOC,3,PH,9\nA,TOC,2001,CND,9\nA,TOC,03,CND,9\n";
    let each_row = "A,TOC,0,CND,0\nB,TOC,6,CND,0\nC,TOC,0,CND,8\n";
    vec![
        judged("at_the_edge", "B,TOC,6,CND,0\n", "QUIET\n"),
        judged("inside", "A,TOC,3,CND,4\n", "QUIET\n"),
        // (1, 2): 4 + 4 of 25
        judged("below_detection", "A,TOC,<3,CND,<4\n", "QUIET\n"),
        judged("outside", "A,TOC,7,CND,0\n", "ALARM,30064771072\n"),
        judged(
            "farthest",
            "A,TOC,2000,CND,4000\n",
            "ALARM,85710367358976000\n",
        ),
        judged("tag", "A,TOC,3,PH,4\n", "NO,10,1\n"),
        judged("range", "A,TOC,2001,CND,4\n", "NO,4,1\n"),
        judged("form", "A,TOC,3,CND,04\n", "NO,3,1\n"),
        judged(
            "every_verdict",
            every,
            "QUIET\nALARM,47244640256\nNO,10,1\nNO,4,1\nNO,3,1\n",
        ),
        judged("each_row", each_row, "QUIET\nQUIET\nQUIET\n"),
        three_texts(
            "budget_1",
            [REFERENCE, RECORD_BUDGET_1, "A,TOC,6,CND,0\nA,TOC,6,CND,9\n"],
            "QUIET\nALARM,38654705664\n",
        ),
    ]
}

/// Readings below detection of document 01's record.
pub fn readings_below_detection() -> Vec<KnownInput> {
    vec![
        // (3, 9) is at the edge, (3, 10) is 36 of 25.
        judged(
            "edges",
            "A,TOC,3,CND,<18\nA,TOC,3,CND,<19\nA,TOC,3,CND,<20\nA,TOC,3,CND,<21\n",
            "QUIET\nQUIET\nALARM,47244640256\nALARM,47244640256\n",
        ),
        // (7, 0): 16 + 16 of 25. As (0, 0) it would be at the edge.
        judged("quiet_as_0", "A,TOC,<14,CND,0\n", "ALARM,30064771072\n"),
        // (3, 9): at the edge. As (0, 9) it would be 9 + 25 of 25.
        judged("alarm_as_0", "A,TOC,<6,CND,9\n", "QUIET\n"),
    ]
}

/// Rows below detection that read as 0, 25, 25 and 1: the centre is 12.5, the radius is 12.5, and M is
/// 819,200². The third reading is 26.
pub fn rows_below_detection() -> Vec<KnownInput> {
    let reference = "REF,1,TOC\nA,<1\nB,<51\nC,<50\nD,<2\n";
    let record = "ENV,1,TOC\nC,819200\n\
        R,671088640000,671088640000,1,S\n\
        W,1,32768\nW,2,32768\n";
    let readings = "B,TOC,<50\nB,TOC,<51\nB,TOC,<52\nA,TOC,<1\n";
    // 13.5² of 12.5²
    let verdicts = "QUIET\nQUIET\nALARM,111669149696\nQUIET\n";
    let written = "REF,1,TOC\nA,0\nB,25\nC,25\nD,1\n";
    let of_rows = |program, name, output: &str| {
        known_of(&[program], name, [reference, record, readings], output)
    };
    vec![
        of_rows(Program::Draw, "drawn", record),
        of_rows(Program::Verify, "verified", "OK\n"),
        of_rows(Program::Panel, "shown", "TOC,13\n"),
        of_rows(Program::Judge, "judged", verdicts),
        of_rows(Program::Alerts, "tried", "1,1,1,1\n4,1,3,0\n"),
        of_rows(Program::Plain, "written", written),
    ]
}

/// Records drawn while values below detection read as 0.
pub fn drawn_as_0() -> Vec<KnownInput> {
    let read = |redrawn: Redrawn| {
        let (programs, output) = match redrawn.kept {
            Some(_) => (&[Program::Verify][..], "OK\n"),
            None => (&READERS[..], "NO,12,0\n"),
        };
        let texts = [redrawn.reference, redrawn.drawn_as_0, READING];
        known_of(programs, redrawn.name, texts, output)
    };
    drawn_as_0::all().into_iter().map(read).collect()
}

/// The records that are drawn of the same texts.
pub fn drawn_anew() -> Vec<KnownInput> {
    let list = drawn_as_0::all().into_iter();
    list.map(|redrawn| drawn(redrawn.name, redrawn.reference, redrawn.drawn))
        .collect()
}

/// A kept record of the ball with centre (3, 4) and radius 5. The third reading is (7, 0).
pub fn kept_record() -> Vec<KnownInput> {
    let Redrawn {
        reference,
        drawn_as_0,
        ..
    } = drawn_as_0::kept();
    let readings = "D,TOC,<6,CND,<9\nE,TOC,<1,CND,<16\nF,TOC,<15,CND,<1\n";
    let of_kept = |program, name, output: &str| {
        let texts = [reference, drawn_as_0, readings];
        known_of(&[program], name, texts, output)
    };
    vec![
        of_kept(Program::Panel, "shown", "TOC,3\nCND,4\n"),
        of_kept(
            Program::Judge,
            "judged",
            "QUIET\nQUIET\nALARM,30064771072\n",
        ),
        of_kept(Program::Alerts, "tried", "1,1,1,1\n3,1,2,0\n"),
        of_kept(
            Program::Plain,
            "written",
            "REF,2,TOC,CND\nA,0,0\nB,6,0\nC,0,8\nD,3,4\n",
        ),
    ]
}

/// Each line is a reading, an empty one too, and so is a last piece without byte 10.
pub fn reading_lines() -> Vec<KnownInput> {
    let without_end = READING.trim_end();
    let then_piece = |piece: &str| format!("{READING}{piece}");
    let empty_lines = format!("{READING}\n\n{READING}");
    vec![
        judged("nothing", "", "NO,1,0\n"),
        judged("two_lines", &READING.repeat(2), "QUIET\nQUIET\n"),
        judged("empty_line_alone", "\n", "NO,3,1\n"),
        judged(
            "empty_line_first",
            &format!("\n{READING}"),
            "NO,3,1\nQUIET\n",
        ),
        judged(
            "empty_lines_first",
            &format!("\n\n{READING}"),
            "NO,3,1\nNO,3,1\nQUIET\n",
        ),
        judged(
            "empty_lines_within",
            &empty_lines,
            "QUIET\nNO,3,1\nNO,3,1\nQUIET\n",
        ),
        judged("empty_line_last", &then_piece("\n"), "QUIET\nNO,3,1\n"),
        judged("piece_alone", without_end, "NO,3,1\n"),
        judged("piece_last", &then_piece(without_end), "QUIET\nNO,3,1\n"),
        judged("piece_of_one_byte", &then_piece("L"), "QUIET\nNO,3,1\n"),
        judged("byte_13", &READING.replace('\n', "\r\n"), "NO,3,1\n"),
        judged("byte_0", "\0", "NO,3,1\n"),
    ]
}

/// Readings as long as the limit and one byte longer.
pub fn reading_lengths() -> Vec<KnownInput> {
    let lines = TEXT_LIMIT / READING.len();
    let quiet = "QUIET\n".repeat(lines);
    let [cut, longer] = [TEXT_LIMIT, TEXT_LIMIT + 1].map(readings_of_length);
    let [line, longer_line] = [TEXT_LIMIT, TEXT_LIMIT + 1].map(long_reading);
    let [empty, more_empty] = [TEXT_LIMIT, TEXT_LIMIT + 1].map(|count| "\n".repeat(count));
    let whole = format!("ABCDE{READING}") + &READING.repeat(lines - 1);
    assert_eq!(whole.len(), TEXT_LIMIT);
    vec![
        judged("bytes_65536", &cut, &format!("{quiet}NO,3,1\n")),
        judged("bytes_65537", &longer, "NO,1,0\n"),
        judged("whole_lines_65536", &whole, &quiet),
        judged("whole_lines_65537", &format!("\n{whole}"), "NO,1,0\n"),
        judged("one_line_65536", &line, "NO,4,1\n"),
        judged("one_line_65537", &longer_line, "NO,1,0\n"),
        judged("empty_lines_65536", &empty, &"NO,3,1\n".repeat(TEXT_LIMIT)),
        judged("empty_lines_65537", &more_empty, "NO,1,0\n"),
    ]
}

/// Texts of several megabytes in each place: above the limit, or refused for another text.
pub fn large() -> Vec<KnownInput> {
    let (reference, record) = (reference_of_length(MEGABYTES), record_of_length(MEGABYTES));
    let (readings, empty_lines) = (readings_of_length(MEGABYTES), "\n".repeat(MEGABYTES));
    let rows = rows(MEGABYTES / 7);
    let large = [&reference[..], &record, &readings];
    // As many bytes as the text alone has, where a length is held in 16 bits.
    let wrapped = |text: &str| format!("{text}{}", "\n".repeat(48 << 16));
    let form_before = [REFERENCE, "ENV\n", &readings];
    vec![
        of_reference("reference", &reference, "NO,1,0\n"),
        of_reference("reference_of_rows", &rows, "NO,1,0\n"),
        of_reference("reference_of_empty_lines", &empty_lines, "NO,1,0\n"),
        of_record("record", &record, "NO,1,0\n"),
        of_record("record_of_empty_lines", &empty_lines, "NO,1,0\n"),
        two_texts("heading_before_record", "REF,9\n", &record, "NO,2,1\n"),
        judged("readings", &readings, "NO,1,0\n"),
        judged("readings_of_empty_lines", &empty_lines, "NO,1,0\n"),
        three_texts("form_before_readings", form_before, "NO,11,1\n"),
        known_of(&PROGRAMS, "every_text", large, "NO,1,0\n"),
        of_reference("reference_length_wrapped", &wrapped(REFERENCE), "NO,1,0\n"),
        of_record("record_length_wrapped", &wrapped(RECORD), "NO,1,0\n"),
        judged("readings_length_wrapped", &wrapped(READING), "NO,1,0\n"),
    ]
}

pub fn all() -> Vec<KnownInput> {
    [
        examples(),
        rewritings(),
        halves(),
        reference_refusals(),
        reference_empty_lines(),
        record_refusals(),
        record_empty_lines(),
        embedded(),
        strangers_balls(),
        exchanged(),
        several_refused(),
        lengths(),
        verdicts(),
        readings_below_detection(),
        rows_below_detection(),
        drawn_as_0(),
        drawn_anew(),
        kept_record(),
        reading_lines(),
        reading_lengths(),
        large(),
        known_alerts::programs(),
    ]
    .concat()
}
