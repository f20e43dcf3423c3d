//! The records that document 01 and the list of bad input name, with the answers that the rules
//! give, written down by hand.

use crate::drawn_as_0::{self, Redrawn};
use crate::known_readings;
use crate::readings::EnvelopeFigures;
use crate::records::{Envelope, TypedRows};
use crate::reference::TEXT_LIMIT;
use crate::rules::{Refusal, WEIGHTS_DISAGREE};
use crate::sets::Set;

/// A record by name, the rows and types that it is read against, and the answer.
#[derive(Clone, Debug)]
pub struct KnownRecord {
    pub name: &'static str,
    pub rows: TypedRows,
    pub text: Vec<u8>,
    pub outcome: Result<Envelope, Refusal>,
}

/// Document 01's record.
pub const RECORD: &str = "ENV,2,TOC,CND\n\
    C,196608,262144\n\
    R,107374182400,107374182400,2,S\n\
    W,2,32768\n\
    W,3,32768\n";

/// The same rows drawn with budget 1.
pub const RECORD_BUDGET_1: &str = "ENV,2,TOC,CND\n\
    C,0,262144\n\
    R,223338299392,68719476736,1,B\n\
    W,1,32768\n\
    W,3,32768\n";

/// The same rows drawn with budget 0: (0, 0), and the farthest row is (0, 8).
pub const RECORD_BUDGET_0: &str = "ENV,2,TOC,CND\n\
    C,0,0\n\
    R,274877906944,0,0,B\n\
    W,1,65536\n";

/// The rows 0 and 10 of TOC: the centre is 5 and the radius is 5.
pub const ROWS_0_10: &str = "ENV,1,TOC\nC,327680\n\
    R,107374182400,107374182400,1,S\n\
    W,1,32768\nW,2,32768\n";

/// All weight on the last of 256 rows that are all 5.
pub const ROW_256: &str = "ENV,1,TOC\nC,327680\nR,0,0,0,S\nW,256,65536\n";

/// Document 01's rows: (0, 0), (6, 0), (0, 8) of TOC and CND.
pub fn rows() -> TypedRows {
    typed(&[0, 0, 6, 0, 0, 8], 3, &[1, 4])
}

/// Rows of as many channels as there are types.
pub fn typed(places: &[i32], m: usize, types: &[u8]) -> TypedRows {
    TypedRows {
        set: Set {
            places: places.to_vec(),
            m,
            n: types.len(),
        },
        types: types.to_vec(),
    }
}

/// The envelope of document 01's record.
pub fn envelope() -> Envelope {
    Envelope {
        figures: known_readings::record(),
        weights: vec![0, 32_768, 32_768],
    }
}

pub fn envelope_budget_1() -> Envelope {
    Envelope {
        figures: known_readings::record_with_budget_1(),
        weights: vec![32_768, 0, 32_768],
    }
}

pub fn envelope_budget_0() -> Envelope {
    let figures = EnvelopeFigures {
        scaled_centre: vec![0, 0],
        scaled_squared_radius: 274_877_906_944,
        scaled_lower_bound: 0,
        settled: 0,
        moves: 0,
        ..known_readings::record()
    };
    Envelope {
        figures,
        weights: vec![65_536, 0, 0],
    }
}

fn known(
    name: &'static str,
    rows: TypedRows,
    text: impl Into<Vec<u8>>,
    outcome: Result<Envelope, Refusal>,
) -> KnownRecord {
    KnownRecord {
        name,
        rows,
        text: text.into(),
        outcome,
    }
}

fn refused(
    name: &'static str,
    rows: TypedRows,
    text: impl Into<Vec<u8>>,
    (number, line): (u32, u32),
) -> KnownRecord {
    known(name, rows, text, Err(Refusal { number, line }))
}

/// Refused by 11 at a line, against document 01's rows.
fn form(name: &'static str, line: u32, text: impl Into<Vec<u8>>) -> KnownRecord {
    refused(name, rows(), text, (11, line))
}

/// Document 01's record with another text in the place of a line, without its byte 10.
fn with_line(line: usize, text: &str) -> String {
    let mut lines: Vec<&str> = RECORD.lines().collect();
    lines[line - 1] = text;
    lines.join("\n") + "\n"
}

/// Refused by 11 at the line that is changed.
fn form_in(name: &'static str, line: usize, text: &str) -> KnownRecord {
    form(name, line as u32, with_line(line, text))
}

/// Refused by 12, with one line changed.
fn disagrees(name: &'static str, line: usize, text: &str) -> KnownRecord {
    refused(name, rows(), with_line(line, text), (12, 0))
}

/// Document 01's record and its trial figure, and the example of refusal 11.
pub fn examples() -> Vec<KnownRecord> {
    vec![
        known("record", rows(), RECORD, Ok(envelope())),
        known("budget_1", rows(), RECORD_BUDGET_1, Ok(envelope_budget_1())),
        known("budget_0", rows(), RECORD_BUDGET_0, Ok(envelope_budget_0())),
        form("no_channels", 1, "ENV,0"),
        form("no_channels_ended", 1, "ENV,0\n"),
    ]
}

pub fn lengths() -> Vec<KnownRecord> {
    // The bytes of document 01's record with a number of its second line stretched, and of line ends.
    let digits = |length: usize| {
        let more = "7".repeat(length - RECORD.len());
        with_line(2, &format!("C,196608,262144{more}"))
    };
    let line_ends = |length: usize| RECORD.to_string() + &"\n".repeat(length - RECORD.len());
    let (most, above) = (TEXT_LIMIT, TEXT_LIMIT + 1);
    vec![
        refused("bytes_0", rows(), "", (1, 0)),
        form("bytes_65536_digits", 2, digits(most)),
        refused("bytes_65537_digits", rows(), digits(above), (1, 0)),
        form("bytes_65536_line_ends", 6, line_ends(most)),
        refused("bytes_65537_line_ends", rows(), line_ends(above), (1, 0)),
        form("bytes_65536_no_line_end", 1, vec![b'E'; most]),
        refused("bytes_65537_no_line_end", rows(), vec![b'E'; above], (1, 0)),
    ]
}

pub fn headings() -> Vec<KnownRecord> {
    let heading = |name, text| form_in(name, 1, text);
    vec![
        heading("word_ref", "REF,2,TOC,CND"),
        heading("word_lower_case", "env,2,TOC,CND"),
        heading("word_shorter", "EN,2,TOC,CND"),
        heading("word_longer", "ENVE,2,TOC,CND"),
        heading("word_empty", ",2,TOC,CND"),
        heading("word_alone", "ENV"),
        heading("empty_heading", ""),
        heading("channels_0", "ENV,0"),
        heading("channels_0_with_tags", "ENV,0,TOC,CND"),
        heading("channels_1_of_2", "ENV,1,TOC,CND"),
        heading("channels_3_of_2", "ENV,3,TOC,CND"),
        heading("channels_9", "ENV,9,TOC,TC,IC,CND,TMP,PH,FLW,ORP,TOC"),
        heading("channels_02", "ENV,02,TOC,CND"),
        heading("channels_minus_2", "ENV,-2,TOC,CND"),
        heading("channels_empty", "ENV,,TOC,CND"),
        heading("channels_20_digits", "ENV,20000000000000000000,TOC,CND"),
        heading("tag_unknown", "ENV,2,TOC,XYZ"),
        heading("tag_lower_case", "ENV,2,toc,CND"),
        heading("tag_empty", "ENV,2,TOC,"),
        heading("tag_longer", "ENV,2,TOC,CNDX"),
        heading("tag_blank", "ENV,2,TOC, CND"),
        heading("byte_13", "ENV,2,TOC,CND\r"),
        form("without_line_end", 1, "ENV,2,TOC,CND"),
    ]
}

pub fn centres() -> Vec<KnownRecord> {
    let centre = |name, text| form_in(name, 2, text);
    vec![
        centre("word_lower_case", "c,196608,262144"),
        centre("word_of_figures", "R,196608,262144"),
        centre("word_longer", "CX,196608,262144"),
        centre("word_empty", ",196608,262144"),
        centre("word_alone", "C"),
        centre("empty_line", ""),
        centre("one_of_2", "C,196608"),
        centre("three_of_2", "C,196608,262144,0"),
        centre("comma_behind", "C,196608,262144,"),
        centre("number_empty", "C,,262144"),
        centre("number_minus_0", "C,-0,262144"),
        centre("number_leading_0", "C,0196608,262144"),
        centre("number_00", "C,00,262144"),
        centre("number_plus", "C,+196608,262144"),
        centre("number_minus_alone", "C,-,262144"),
        centre("number_blank_before", "C, 196608,262144"),
        centre("number_blank_behind", "C,196608 ,262144"),
        centre("number_point", "C,196608.0,262144"),
        centre("number_below", "C,<196608,262144"),
        centre("number_letter", "C,A,262144"),
        centre("number_byte_0", "C,196608\0,262144"),
        centre("number_20_digits", "C,10000000000000000000,262144"),
        centre("number_minus_20_digits", "C,-10000000000000000000,262144"),
        centre("number_20_digits_last", "C,196608,99999999999999999999"),
        centre("byte_13", "C,196608,262144\r"),
        form("without_line_end", 2, "ENV,2,TOC,CND\nC,196608,262144"),
    ]
}

pub fn figures() -> Vec<KnownRecord> {
    let figures = |name, text: &str| form_in(name, 3, text);
    let radius = |name, number| figures(name, &format!("R,{number},107374182400,2,S"));
    let bound = |name, number| figures(name, &format!("R,107374182400,{number},2,S"));
    vec![
        figures("word_lower_case", "r,107374182400,107374182400,2,S"),
        figures("word_of_centre", "C,107374182400,107374182400,2,S"),
        figures("word_longer", "RR,107374182400,107374182400,2,S"),
        figures("empty_line", ""),
        figures("field_too_few", "R,107374182400,107374182400,2"),
        figures("field_too_many", "R,107374182400,107374182400,2,S,"),
        radius("radius_empty", ""),
        radius("radius_minus_0", "-0"),
        radius("radius_leading_0", "0107374182400"),
        radius("radius_20_digits", "10000000000000000000"),
        radius("radius_minus_20_digits", "-10000000000000000000"),
        bound("bound_empty", ""),
        bound("bound_minus_0", "-0"),
        bound("bound_leading_0", "0107374182400"),
        bound("bound_20_digits", "10000000000000000000"),
        form(
            "without_line_end",
            3,
            "ENV,2,TOC,CND\nC,196608,262144\nR,107374182400,107374182400,2,S",
        ),
    ]
}

/// Moves and letters.
pub fn endings() -> Vec<KnownRecord> {
    let ending = |name, text| form_in(name, 3, &format!("R,107374182400,107374182400,{text}"));
    vec![
        ending("moves_empty", ",S"),
        ending("moves_minus_0", "-0,S"),
        ending("moves_minus_1", "-1,S"),
        ending("moves_02", "02,S"),
        ending("moves_1000001", "1000001,S"),
        ending("moves_in_32_bits", "4294967298,S"),
        ending("moves_19_digits", "9999999999999999999,S"),
        ending("moves_20_digits", "10000000000000000000,S"),
        ending("letter_empty", "2,"),
        ending("letter_lower_case", "2,s"),
        ending("letter_other", "2,C"),
        ending("letter_twice", "2,SS"),
        ending("letter_blank", "2,S "),
        ending("letter_1", "2,1"),
        ending("byte_13", "2,S\r"),
    ]
}

pub fn weights() -> Vec<KnownRecord> {
    let first = |name, text| form_in(name, 4, text);
    let second = |name, text| form_in(name, 5, text);
    vec![
        first("word_lower_case", "w,2,32768"),
        first("word_empty", ",2,32768"),
        first("word_longer", "WW,2,32768"),
        second("second_word_of_figures", "R,3,32768"),
        first("empty_line", ""),
        second("second_empty_line", ""),
        first("field_too_few", "W,2"),
        first("field_too_many", "W,2,32768,"),
        first("row_0", "W,0,32768"),
        first("row_257", "W,257,32768"),
        first("row_minus_2", "W,-2,32768"),
        first("row_02", "W,02,32768"),
        first("row_minus_0", "W,-0,32768"),
        first("row_empty", "W,,32768"),
        first("row_in_32_bits", "W,4294967298,32768"),
        first("row_19_digits", "W,9999999999999999999,32768"),
        first("row_20_digits", "W,20000000000000000000,32768"),
        second("row_equal", "W,2,32768"),
        second("row_falling", "W,1,32768"),
        second("second_row_257", "W,257,32768"),
        first("weight_0", "W,2,0"),
        first("weight_minus_1", "W,2,-1"),
        first("weight_minus_0", "W,2,-0"),
        first("weight_032768", "W,2,032768"),
        first("weight_empty", "W,2,"),
        first("weight_20_digits", "W,2,32768000000000000000"),
        second("byte_13", "W,3,32768\r"),
        form(
            "without_line_end",
            5,
            RECORD.strip_suffix('\n').expect("an end"),
        ),
    ]
}

/// Lines missing, exchanged and twice.
pub fn lines() -> Vec<KnownRecord> {
    let lines: Vec<&str> = RECORD.split_inclusive('\n').collect();
    let of = |order: &[usize]| -> String { order.iter().map(|&line| lines[line - 1]).collect() };
    vec![
        form("heading_alone", 2, of(&[1])),
        form("no_figures", 3, of(&[1, 2])),
        form("no_weights", 4, of(&[1, 2, 3])),
        form("heading_dropped", 1, of(&[2, 3, 4, 5])),
        form("centre_dropped", 2, of(&[1, 3, 4, 5])),
        form("figures_dropped", 3, of(&[1, 2, 4, 5])),
        refused("weight_dropped", rows(), of(&[1, 2, 3, 5]), (12, 0)),
        refused("last_weight_dropped", rows(), of(&[1, 2, 3, 4]), (12, 0)),
        form("heading_exchanged", 1, of(&[2, 1, 3, 4, 5])),
        form("centre_exchanged", 2, of(&[1, 3, 2, 4, 5])),
        form("figures_exchanged", 3, of(&[1, 2, 4, 3, 5])),
        form("weights_exchanged", 5, of(&[1, 2, 3, 5, 4])),
        form("heading_twice", 2, of(&[1, 1, 2, 3, 4, 5])),
        form("centre_twice", 3, of(&[1, 2, 2, 3, 4, 5])),
        form("figures_twice", 4, of(&[1, 2, 3, 3, 4, 5])),
        form("weight_twice", 5, of(&[1, 2, 3, 4, 4, 5])),
        form("last_weight_twice", 6, of(&[1, 2, 3, 4, 5, 5])),
    ]
}

/// Lines before the first and behind the last, and line ends out of their places.
pub fn line_ends() -> Vec<KnownRecord> {
    let behind = |more: &str| RECORD.to_string() + more;
    vec![
        form("line_end_alone", 1, "\n"),
        form("empty_line_first", 1, format!("\n{RECORD}")),
        form("empty_line_behind", 6, behind("\n")),
        form("byte_behind", 6, behind("\0")),
        form("blank_behind", 6, behind(" ")),
        form("heading_behind", 6, behind("ENV,2,TOC,CND\n")),
        form("record_behind", 6, behind(RECORD)),
        form("weight_behind_without_end", 6, behind("W,256,1")),
        refused("weight_behind", rows(), behind("W,256,1\n"), (12, 0)),
        form(
            "comma_for_a_line_end",
            4,
            RECORD.replace("32768\nW", "32768,W"),
        ),
    ]
}

/// In form, but n, tags or X are not what the rows, the types and the check give.
pub fn other_centres() -> Vec<KnownRecord> {
    let fewer = "ENV,1,TOC\nC,196608\nR,0,0,2,S\nW,1,65536\n";
    let more = "ENV,3,TOC,CND,PH\nC,196608,262144,0\n".to_string();
    let more = more
        + RECORD
            .split_inclusive('\n')
            .skip(2)
            .collect::<String>()
            .as_str();
    vec![
        disagrees("tag_differs", 1, "ENV,2,TOC,PH"),
        disagrees("tags_exchanged", 1, "ENV,2,CND,TOC"),
        refused("channel_less", rows(), fewer, (12, 0)),
        refused("channel_more", rows(), more, (12, 0)),
        disagrees("centre_above", 2, "C,196609,262144"),
        disagrees("centre_below", 2, "C,196607,262144"),
        disagrees("centre_above_last", 2, "C,196608,262145"),
        disagrees("centre_below_last", 2, "C,196608,262143"),
        disagrees("centre_negative", 2, "C,-196608,262144"),
        disagrees("centre_past_its_limit", 2, "C,262144001,262144"),
        disagrees("centre_in_32_bits", 2, "C,4295163904,262144"),
        disagrees("centre_19_digits", 2, "C,9999999999999999999,262144"),
        disagrees("centre_minus_19_digits", 2, "C,-9999999999999999999,262144"),
        disagrees("centre_2_to_63", 2, "C,9223372036854775808,262144"),
    ]
}

/// In form, but M, L or the letter is not what the check gives.
pub fn other_figures() -> Vec<KnownRecord> {
    let radius = |name, number| disagrees(name, 3, &format!("R,{number},107374182400,2,S"));
    let bound = |name, number| disagrees(name, 3, &format!("R,107374182400,{number},2,S"));
    let settled = RECORD_BUDGET_1.replace('B', "S");
    vec![
        radius("radius_above", "107374182401"),
        radius("radius_below", "107374182399"),
        radius("radius_negative", "-107374182400"),
        radius("radius_minus_1", "-1"),
        radius("radius_19_digits", "9999999999999999999"),
        radius("radius_minus_19_digits", "-9999999999999999999"),
        bound("bound_above", "107374182401"),
        bound("bound_below", "107374182399"),
        bound("bound_negative", "-107374182400"),
        bound("bound_minus_1", "-1"),
        bound("bound_19_digits", "9999999999999999999"),
        disagrees("budget_for_settled", 3, "R,107374182400,107374182400,2,B"),
        refused("settled_for_budget", rows(), settled, (12, 0)),
    ]
}

/// In form, but the weights are not those of the figures, or of m rows.
pub fn other_weights() -> Vec<KnownRecord> {
    let second = |name, text| disagrees(name, 5, text);
    vec![
        second("sum_below", "W,3,32767"),
        second("sum_above", "W,3,32769"),
        disagrees("row_of_another_weight", 4, "W,1,32768"),
        second("weight_in_32_bits", "W,3,4295000064"),
        second("weight_2_to_63", "W,3,9223372036854808576"),
        second("weight_19_digits", "W,3,9999999999999999999"),
        second("row_above_m", "W,4,32768"),
        second("row_256_above_m", "W,256,32768"),
    ]
}

/// Accepted at the ends of what a record can state.
pub fn at_the_limits() -> Vec<KnownRecord> {
    let moves = |moves: u32| {
        let mut with_moves = envelope();
        with_moves.figures.moves = moves;
        let line = format!("R,107374182400,107374182400,{moves},S");
        (with_line(3, &line), Ok(with_moves))
    };
    let (most_text, most) = moves(1_000_000);
    let (none_text, none) = moves(0);
    let one_row = |count: usize| typed(&vec![5; count], count, &[1]);
    let (all_text, all_rows, all) = all_weights();
    let (farthest_text, farthest_rows, farthest) = farthest();
    vec![
        known("moves_1000000", rows(), most_text, most),
        known("moves_0", rows(), none_text, none),
        known("row_256", one_row(256), ROW_256, Ok(all_on_row_256())),
        refused("row_256_of_255", one_row(255), ROW_256, (12, 0)),
        known("weights_256", all_rows, all_text, Ok(all)),
        known(
            "largest_figures",
            farthest_rows,
            farthest_text,
            Ok(farthest),
        ),
    ]
}

/// Figures whose X is the same in every channel and whose L is 0; Settled where M is 0.
fn alike(types: &[u8], centre: i64, scaled_squared_radius: u64, moves: u32) -> EnvelopeFigures {
    EnvelopeFigures {
        n: types.len(),
        types: types.to_vec(),
        scaled_centre: vec![centre; types.len()],
        scaled_squared_radius,
        scaled_lower_bound: 0,
        settled: u32::from(scaled_squared_radius == 0),
        moves,
    }
}

/// All weight on the last of 256 rows that are all 5.
pub fn all_on_row_256() -> Envelope {
    let mut weights = vec![0; 256];
    weights[255] = 65_536;
    let figures = alike(&[1], 327_680, 0, 0);
    Envelope { figures, weights }
}

/// A weight of 256 on each of 256 rows, all of them -1 in 8 channels.
pub fn all_weights() -> (String, TypedRows, Envelope) {
    let types = [1, 2, 3, 4, 5, 6, 7, 8];
    let mut text = "ENV,8,TOC,TC,IC,CND,TMP,PH,FLW,ORP\n".to_string();
    text += "C,-65536,-65536,-65536,-65536,-65536,-65536,-65536,-65536\n";
    text += "R,0,0,7,S\n";
    (1..=256).for_each(|row| text += &format!("W,{row},256\n"));
    let figures = alike(&types, -65_536, 0, 7);
    let weights = vec![256; 256];
    let rows = typed(&[-1; 2_048], 256, &types);
    (text, rows, Envelope { figures, weights })
}

/// Two rows as far from each other as they can be, all weight on the second.
pub fn farthest() -> (String, TypedRows, Envelope) {
    let mut text = "ENV,8,ORP,ORP,ORP,ORP,ORP,ORP,ORP,ORP\n".to_string();
    text += &format!("C{}\n", ",-262144000".repeat(8));
    text += "R,2199023255552000000,0,0,B\nW,2,65536\n";
    let figures = alike(&[8; 8], -262_144_000, 2_199_023_255_552_000_000, 0);
    let places = [[4_000; 8], [-4_000; 8]].concat();
    let weights = vec![0, 65_536];
    let rows = typed(&places, 2, &[8; 8]);
    (text, rows, Envelope { figures, weights })
}

/// Rows and types outside their limits: 8, whatever the text is.
pub fn outside_limits() -> Vec<KnownRecord> {
    let changed = |name, change: fn(&mut TypedRows)| {
        let mut rows = rows();
        change(&mut rows);
        refused(name, rows, RECORD, (8, 0))
    };
    vec![
        changed("channels_0", |rows| rows.set.n = 0),
        changed("channels_9", |rows| *rows = typed(&[0; 27], 3, &[1; 9])),
        changed("channels_most", |rows| rows.set.n = usize::MAX),
        changed("rows_0", |rows| rows.set.m = 0),
        changed("rows_257", |rows| *rows = typed(&[0; 514], 257, &[1, 4])),
        changed("rows_most", |rows| rows.set.m = usize::MAX),
        changed("product_wraps", |rows| {
            (rows.set.m, rows.set.n) = (1 << 63, 2)
        }),
        changed("rows_short", |rows| rows.set.places.truncate(5)),
        changed("no_rows", |rows| rows.set.places.clear()),
        changed("coordinate_above", |rows| rows.set.places[5] = 4_001),
        changed("coordinate_below", |rows| rows.set.places[0] = -4_001),
        changed("types_short", |rows| rows.types.truncate(1)),
        changed("no_types", |rows| rows.types.clear()),
        changed("code_0", |rows| rows.types[0] = 0),
        changed("code_9", |rows| rows.types[1] = 9),
        changed("code_255", |rows| rows.types[1] = 255),
    ]
}

/// Places past the counted ones are not looked at.
pub fn past_the_counts() -> Vec<KnownRecord> {
    let mut longer_rows = rows();
    longer_rows.set.places.extend([4_001, i32::MIN]);
    let mut longer_types = rows();
    longer_types.types.extend([0, 9, 255]);
    vec![
        known("places_past_the_rows", longer_rows, RECORD, Ok(envelope())),
        known(
            "places_past_the_types",
            longer_types,
            RECORD,
            Ok(envelope()),
        ),
    ]
}

/// Two faults at once: the rows and types come first, then the length, then the form.
pub fn orders() -> Vec<KnownRecord> {
    let mut faulty = rows();
    faulty.types[1] = 9;
    let outside = |name, text: String| refused(name, faulty.clone(), text, (8, 0));
    let long = "E".repeat(TEXT_LIMIT + 1);
    vec![
        outside("limits_before_empty", String::new()),
        outside("limits_before_length", long.clone()),
        outside("limits_before_form", "ENV\n".to_string()),
        outside("limits_before_agreement", RECORD.replace('S', "B")),
        refused("length_before_form", rows(), long, (1, 0)),
    ]
}

/// Two changes at once, of which the upper that is out of form is given.
pub fn orders_of_form() -> Vec<KnownRecord> {
    let two = |name, line, one: (&str, &str), other: (&str, &str)| {
        let text = RECORD.replacen(one.0, one.1, 1);
        form(name, line, text.replacen(other.0, other.1, 1))
    };
    let no_end = ("W,3,32768\n", "W,3,32768");
    let no_weights = ("W,2,32768\nW,3,32768\n", "");
    vec![
        two("upper_form_first", 2, ("196608", "00"), ("W,2", "W,0")),
        two("heading_first", 1, ("ENV", "REF"), ("W,3", "W,2")),
        two("form_behind_another_tag", 5, ("CND", "PH"), ("W,3", "W,2")),
        two(
            "form_behind_another_centre",
            3,
            ("196608", "0"),
            (",2,S", ",-1,S"),
        ),
        two(
            "form_before_another_weight",
            2,
            ("262144", "-0"),
            ("W,3,3", "W,3,4"),
        ),
        two(
            "form_behind_a_negative_radius",
            4,
            ("R,1", "R,-1"),
            ("W,2", "W,257"),
        ),
        two("no_line_end_and_another_letter", 5, ("S", "B"), no_end),
        two("no_weights_and_another_tag", 4, ("CND", "PH"), no_weights),
    ]
}

/// Records drawn while values below detection read as 0.
pub fn drawn_as_0() -> Vec<KnownRecord> {
    let list = drawn_as_0::all().into_iter();
    let read = |redrawn: Redrawn| KnownRecord {
        name: redrawn.name,
        rows: redrawn.rows,
        text: redrawn.drawn_as_0.into(),
        outcome: redrawn.kept.ok_or(WEIGHTS_DISAGREE),
    };
    list.map(read).collect()
}

/// Every list of records that are read.
pub fn all() -> Vec<KnownRecord> {
    [
        examples(),
        lengths(),
        headings(),
        centres(),
        figures(),
        endings(),
        weights(),
        lines(),
        line_ends(),
        other_centres(),
        other_figures(),
        other_weights(),
        at_the_limits(),
        outside_limits(),
        past_the_counts(),
        orders(),
        orders_of_form(),
        drawn_as_0(),
    ]
    .concat()
}

/// Small records with their rows, whose every byte is changed: document 01's three, one of equal
/// rows, where the weights are free, and one of negative X.
pub fn small() -> Vec<(TypedRows, &'static str)> {
    let equal = typed(&[7, 7, 7], 3, &[6]);
    let negative = typed(&[-3, 5, -3, 5, -4, 5], 3, &[8, 5]);
    vec![
        (rows(), RECORD),
        (rows(), RECORD_BUDGET_1),
        (rows(), RECORD_BUDGET_0),
        (equal, "ENV,1,PH\nC,458752\nR,0,0,12,S\nW,1,65530\nW,3,6\n"),
        (
            negative,
            "ENV,2,ORP,TMP\nC,-196609,327680\nR,4294836225,65535,0,B\nW,1,65530\nW,2,5\nW,3,1\n",
        ),
    ]
}

/// Fields to put in the place of a number: those round it and round the limits, of 19 and of 20
/// digits, negative, and out of form.
pub fn numbers_for(own: i128) -> Vec<String> {
    let mut numbers = vec![
        0,
        own - 1,
        own + 1,
        -own,
        own * 10,
        own + (1 << 32),
        own + (1 << 64),
        9_999_999_999_999_999_999,
        -9_999_999_999_999_999_999,
        10_000_000_000_000_000_000,
        -10_000_000_000_000_000_000,
    ];
    for limit in [
        1,
        8,
        256,
        32_768,
        65_536,
        1_000_000,
        1 << 31,
        1 << 32,
        1 << 63,
    ] {
        numbers.extend([limit - 1, limit, limit + 1, -limit]);
    }
    let mut fields: Vec<String> = numbers.iter().map(i128::to_string).collect();
    fields.extend(["", "-", "-0", "00", "A", " 1", "1 "].map(String::from));
    fields.extend([
        format!("0{own}"),
        format!("+{own}"),
        format!("-0{own}"),
        format!("{own}.0"),
    ]);
    fields
}
