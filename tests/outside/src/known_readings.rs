//! The readings that document 01 and the list of bad input name, with the answers that the rules
//! give, written down by hand.

use crate::readings::{EnvelopeFigures, Verdict};
use crate::reference::TEXT_LIMIT;
use crate::rules::Refusal;

/// A reading by name, the figures that it is judged against, and the answer.
#[derive(Clone, Debug)]
pub struct KnownReading {
    pub name: &'static str,
    pub figures: EnvelopeFigures,
    pub text: Vec<u8>,
    pub outcome: Result<Verdict, Refusal>,
}

/// The limit on s.
pub(crate) const MOST: u64 = 2_199_023_255_552_000_000;

/// The envelope of document 01's record: the centre is (3, 4) and the radius is 5.
pub fn record() -> EnvelopeFigures {
    EnvelopeFigures {
        n: 2,
        types: vec![1, 4],
        scaled_centre: vec![196_608, 262_144],
        scaled_squared_radius: 107_374_182_400,
        scaled_lower_bound: 107_374_182_400,
        settled: 1,
        moves: 2,
    }
}

/// The same rows drawn with budget 1: the centre is (0, 4), the squared radius 52.
pub fn record_with_budget_1() -> EnvelopeFigures {
    EnvelopeFigures {
        scaled_centre: vec![0, 262_144],
        scaled_squared_radius: 223_338_299_392,
        scaled_lower_bound: 68_719_476_736,
        settled: 0,
        moves: 1,
        ..record()
    }
}

/// One channel of this type, with this X and this M.
pub(crate) fn one_channel(
    code: u8,
    scaled_centre: i64,
    scaled_squared_radius: u64,
) -> EnvelopeFigures {
    EnvelopeFigures {
        n: 1,
        types: vec![code],
        scaled_centre: vec![scaled_centre],
        scaled_squared_radius,
        scaled_lower_bound: 0,
        settled: 1,
        moves: 0,
    }
}

/// Eight channels of CND, each X at its limit below, with this M. A value of 4000 is as far from X
/// as any can be: 524,288,000.
pub(crate) fn widest(scaled_squared_radius: u64) -> EnvelopeFigures {
    EnvelopeFigures {
        n: 8,
        types: vec![4; 8],
        scaled_centre: vec![-262_144_000; 8],
        ..one_channel(4, 0, scaled_squared_radius)
    }
}

pub(crate) fn farthest_reading() -> String {
    format!("A{}\n", ",CND,4000".repeat(8))
}

fn known(
    name: &'static str,
    figures: EnvelopeFigures,
    text: impl Into<Vec<u8>>,
    outcome: Result<Verdict, Refusal>,
) -> KnownReading {
    KnownReading {
        name,
        figures,
        text: text.into(),
        outcome,
    }
}

fn quiet(name: &'static str, figures: EnvelopeFigures, text: impl Into<Vec<u8>>) -> KnownReading {
    known(name, figures, text, Ok(Verdict::Quiet))
}

fn alarm(
    name: &'static str,
    figures: EnvelopeFigures,
    text: impl Into<Vec<u8>>,
    excess: i128,
) -> KnownReading {
    known(name, figures, text, Ok(Verdict::Alarm { excess }))
}

fn refused(
    name: &'static str,
    figures: EnvelopeFigures,
    text: impl Into<Vec<u8>>,
    number: u32,
    line: u32,
) -> KnownReading {
    known(name, figures, text, Err(Refusal { number, line }))
}

/// Refused by a number at line 1, against the record's envelope.
fn turned_back(name: &'static str, text: impl Into<Vec<u8>>, number: u32) -> KnownReading {
    refused(name, record(), text, number, 1)
}

/// Under TOC alone, where every value in range is Quiet.
fn under_toc(name: &'static str, value: &str, outcome: Result<Verdict, u32>) -> KnownReading {
    let outcome = outcome.map_err(|number| Refusal { number, line: 1 });
    let text = format!("A,TOC,{value}\n");
    known(name, one_channel(1, 0, MOST), text, outcome)
}

/// The rows of the record, which are all at the edge, and the example of refusal 10.
pub fn examples() -> Vec<KnownReading> {
    let toc = one_channel(1, 0, MOST);
    vec![
        quiet("row_a", record(), "A,TOC,0,CND,0\n"),
        quiet("row_b", record(), "B,TOC,6,CND,0\n"),
        quiet("row_c", record(), "C,TOC,0,CND,8\n"),
        quiet("row_a_budget_1", record_with_budget_1(), "A,TOC,0,CND,0\n"),
        quiet("row_b_budget_1", record_with_budget_1(), "B,TOC,6,CND,0\n"),
        quiet("row_c_budget_1", record_with_budget_1(), "C,TOC,0,CND,8\n"),
        refused("ph_for_toc", toc, "A,PH,480\n", 10, 1),
    ]
}

/// Squared distances from (3, 4), or from (0, 4), in units of D², which is 4,294,967,296.
pub fn verdicts() -> Vec<KnownReading> {
    vec![
        quiet("centre", record(), "A,TOC,3,CND,4\n"),
        quiet("fourth_corner", record(), "A,TOC,6,CND,8\n"),
        // 997² + 1,996² - 25
        alarm(
            "below_both_highest",
            record(),
            "A,TOC,<2000,CND,<4000\n",
            21_380_347_199_488_000,
        ),
        // 16 + 16 - 25
        alarm("toc_7", record(), "A,TOC,7,CND,0\n", 30_064_771_072),
        // 9 + 25 - 25
        alarm("cnd_9", record(), "A,TOC,0,CND,9\n", 38_654_705_664),
        // 0 + 36 - 25
        alarm("cnd_10", record(), "A,TOC,3,CND,10\n", 47_244_640_256),
        // 9 + 36 - 25
        alarm(
            "below_and_10",
            record(),
            "A,TOC,<1,CND,10\n",
            85_899_345_920,
        ),
        // 1,997² + 3,996² - 25
        alarm(
            "both_highest",
            record(),
            "A,TOC,2000,CND,4000\n",
            85_710_367_358_976_000,
        ),
        // 49 + 16 - 52
        alarm(
            "toc_7_budget_1",
            record_with_budget_1(),
            "A,TOC,7,CND,0\n",
            55_834_574_848,
        ),
    ]
}

/// s against M in units of 1: s is the square of D · value - X.
pub fn edges() -> Vec<KnownReading> {
    let orp = |centre, radius| one_channel(8, centre, radius);
    let temperature = |radius| one_channel(5, 0, radius);
    vec![
        quiet("s_0_of_0", orp(0, 0), "A,ORP,0\n"),
        quiet("s_0_of_1", orp(0, 1), "A,ORP,0\n"),
        alarm("s_1_of_0", orp(1, 0), "A,ORP,0\n", 1),
        quiet("s_1_of_1", orp(1, 1), "A,ORP,0\n"),
        alarm("s_1_of_0_below", orp(-1, 0), "A,ORP,0\n", 1),
        alarm("s_1_of_0_beside_1", orp(65_535, 0), "A,ORP,1\n", 1),
        quiet("s_1_of_1_beside_1", orp(65_535, 1), "A,ORP,1\n"),
        alarm("s_4_of_1", orp(-65_538, 1), "A,ORP,-1\n", 3),
        // (65,536 · 7)²
        quiet("seven_of_s", orp(0, 210_453_397_504), "A,ORP,7\n"),
        quiet("seven_of_s_and_1", orp(0, 210_453_397_505), "A,ORP,7\n"),
        alarm("seven_of_s_less_1", orp(0, 210_453_397_503), "A,ORP,7\n", 1),
        quiet("minus_7_of_s", orp(0, 210_453_397_504), "A,ORP,-7\n"),
        alarm(
            "minus_7_of_s_less_1",
            orp(0, 210_453_397_503),
            "A,ORP,-7\n",
            1,
        ),
        // (65,536 · 200)²
        quiet("tmp_of_s", temperature(171_798_691_840_000), "A,TMP,-200\n"),
        alarm(
            "tmp_of_s_less_1",
            temperature(171_798_691_839_999),
            "A,TMP,-200\n",
            1,
        ),
        // (65,536 · -2,000 - 262,144,000)²
        quiet(
            "orp_of_s",
            orp(262_144_000, 154_618_822_656_000_000),
            "A,ORP,-2000\n",
        ),
        alarm(
            "orp_of_0",
            orp(262_144_000, 0),
            "A,ORP,-2000\n",
            154_618_822_656_000_000,
        ),
        // (65,536 · -2,000 - 262,143,999)², which no binary64 holds
        quiet(
            "odd_s_of_s",
            orp(262_143_999, 154_618_821_869_568_001),
            "A,ORP,-2000\n",
        ),
        alarm(
            "odd_s_of_s_less_1",
            orp(262_143_999, 154_618_821_869_568_000),
            "A,ORP,-2000\n",
            1,
        ),
        quiet("largest_s_of_s", widest(MOST), farthest_reading()),
        alarm(
            "largest_s_of_s_less_1",
            widest(MOST - 1),
            farthest_reading(),
            1,
        ),
        alarm(
            "largest_s_of_0",
            widest(0),
            farthest_reading(),
            2_199_023_255_552_000_000,
        ),
    ]
}

/// A ball of radius 0 at 0, with a channel of each type.
fn from_0() -> EnvelopeFigures {
    EnvelopeFigures {
        n: 8,
        types: vec![1, 2, 3, 4, 5, 6, 7, 8],
        scaled_centre: vec![0; 8],
        ..one_channel(1, 0, 0)
    }
}

/// The ends of every range, judged from 0: s is D² times the squares of the values.
pub fn ranges() -> Vec<KnownReading> {
    vec![
        // 200² + 2,000²
        alarm(
            "lows",
            from_0(),
            "LOW,TOC,0,TC,0,IC,0,CND,0,TMP,-200,PH,0,FLW,0,ORP,-2000\n",
            17_351_667_875_840_000,
        ),
        // 2,000² + 4 · 4,000² + 1,500² + 1,400² + 2,000²
        alarm(
            "highs",
            from_0(),
            "HIGH,TOC,2000,TC,4000,IC,4000,CND,4000,TMP,1500,PH,1400,FLW,4000,ORP,2000\n",
            327_319_457_628_160_000,
        ),
        // 1,000² + 4 · 2,000² + 750² + 700² + 1,000²
        alarm(
            "below_highs",
            from_0(),
            "-,TOC,<2000,TC,<4000,IC,<4000,CND,<4000,TMP,<1500,PH,<1400,FLW,<4000,ORP,<2000\n",
            81_829_864_407_040_000,
        ),
        // 999² + 4 · 1,999² + 749² + 699² + 999²
        alarm(
            "below_highs_less_1",
            from_0(),
            "-,TOC,<1999,TC,<3999,IC,<3999,CND,<3999,TMP,<1499,PH,<1399,FLW,<3999,ORP,<1999\n",
            81_731_544_015_699_968,
        ),
        quiet(
            "below_1_each",
            from_0(),
            "-,TOC,<1,TC,<1,IC,<1,CND,<1,TMP,<1,PH,<1,FLW,<1,ORP,<1\n",
        ),
    ]
}

/// What a value below detection reads as, by a ball of radius 0 at a number and by the edge of the record's
/// ball. A step besides the centre is D², which is 4,294,967,296.
pub fn below_detection() -> Vec<KnownReading> {
    let at = |number: i64| one_channel(1, 65_536 * number, 0);
    let beside = |name, number, text| alarm(name, at(number), text, 4_294_967_296);
    let outside = |name, text| alarm(name, record(), text, 47_244_640_256);
    vec![
        quiet("below_1_at_0", at(0), "A,TOC,<1\n"),
        beside("below_1_beside_1", 1, "A,TOC,<1\n"),
        beside("below_2_beside_0", 0, "A,TOC,<2\n"),
        quiet("below_2_at_1", at(1), "A,TOC,<2\n"),
        quiet("below_3_at_1", at(1), "A,TOC,<3\n"),
        beside("below_4_beside_1", 1, "A,TOC,<4\n"),
        beside("below_49_beside_25", 25, "A,TOC,<49\n"),
        quiet("below_50_at_25", at(25), "A,TOC,<50\n"),
        quiet("below_51_at_25", at(25), "A,TOC,<51\n"),
        beside("below_52_beside_25", 25, "A,TOC,<52\n"),
        quiet("below_1999_at_999", at(999), "A,TOC,<1999\n"),
        beside("below_1999_beside_1000", 1_000, "A,TOC,<1999\n"),
        quiet("below_2000_at_1000", at(1_000), "A,TOC,<2000\n"),
        beside("below_2000_beside_999", 999, "A,TOC,<2000\n"),
        // (3, 9): 25 of 25, and (3, 10): 36 of 25
        quiet("below_18_at_the_edge", record(), "A,TOC,3,CND,<18\n"),
        quiet("below_19_at_the_edge", record(), "A,TOC,3,CND,<19\n"),
        outside("below_20_outside", "A,TOC,3,CND,<20\n"),
        outside("below_21_outside", "A,TOC,3,CND,<21\n"),
        // (7, 0): 16 + 16 of 25, where (0, 0) is at the edge
        alarm("quiet_as_0", record(), "A,TOC,<14,CND,0\n", 30_064_771_072),
        // (3, 9): at the edge, where (0, 9) is 9 + 25 of 25
        quiet("alarm_as_0", record(), "A,TOC,<6,CND,9\n"),
    ]
}

/// One of 65,536 bytes is refused for what is in it, one of 65,537 for its length.
pub fn lengths() -> Vec<KnownReading> {
    let toc = || one_channel(1, 0, MOST);
    // The bytes of "A,TOC,\n" and of "A,,0\n".
    let value = |length: usize| format!("A,TOC,{}\n", "1".repeat(length - 7));
    let tag = |length: usize| format!("A,{},0\n", "C".repeat(length - 5));
    let line_ends = |length: usize| "\n".repeat(length);
    let (most, above) = (TEXT_LIMIT, TEXT_LIMIT + 1);
    vec![
        refused("bytes_0", toc(), "", 1, 0),
        refused("bytes_65536_value", toc(), value(most), 4, 1),
        refused("bytes_65537_value", toc(), value(above), 1, 0),
        refused("bytes_65536_tag", toc(), tag(most), 10, 1),
        refused("bytes_65537_tag", toc(), tag(above), 1, 0),
        refused("bytes_65536_line_ends", toc(), line_ends(most), 3, 1),
        refused("bytes_65537_line_ends", toc(), line_ends(above), 1, 0),
        refused("bytes_65536_no_line_end", toc(), vec![b'A'; most], 3, 1),
        refused("bytes_65537_no_line_end", toc(), vec![b'A'; above], 1, 0),
    ]
}

pub fn lines() -> Vec<KnownReading> {
    let form = |name, text| turned_back(name, text, 3);
    vec![
        form("no_line_end", "A,TOC,0,CND,0"),
        form("two_lines", "A,TOC,0,CND,0\nA,TOC,0,CND,0\n"),
        form("two_lines_last_without_end", "A,TOC,0,CND,0\nB"),
        form("line_end_alone", "\n"),
        form("line_end_twice", "A,TOC,0,CND,0\n\n"),
        form("line_end_first", "\nA,TOC,0,CND,0\n"),
        form("line_end_for_a_comma", "A,TOC,0\nCND,0\n"),
        form("line_end_in_a_tag", "A,TO\nC,0,CND,0\n"),
        form("byte_13", "A,TOC,0,CND,0\r\n"),
        form("byte_0_behind", "A,TOC,0,CND,0\n\0"),
        form("comma_at_the_end", "A,TOC,0,CND,0,\n"),
        form("comma_first", ",A,TOC,0,CND,0\n"),
        form("commas_alone", ",,,,\n"),
        form("label_alone", "A\n"),
        form("channel_too_few", "A,TOC,0\n"),
        form("channel_too_many", "A,TOC,0,CND,0,TOC,0\n"),
        form("value_too_few", "A,TOC,0,CND\n"),
        form("field_too_many", "A,TOC,0,0,CND,0\n"),
        form("values_alone", "A,0,0\n"),
        form("no_label", "TOC,0,CND,0\n"),
        form("label_0_bytes", ",TOC,0,CND,0\n"),
        form("label_13_bytes", "ABCDEFGHIJ-90,TOC,0,CND,0\n"),
        form("label_lower_case", "a,TOC,0,CND,0\n"),
        form("label_with_blank", "A B,TOC,0,CND,0\n"),
        quiet("label_12_bytes", record(), "ABCDEFGHIJ-9,TOC,0,CND,0\n"),
        quiet("label_hyphen", record(), "-,TOC,0,CND,0\n"),
        quiet("label_ref", record(), "REF,TOC,0,CND,0\n"),
    ]
}

pub fn tags() -> Vec<KnownReading> {
    let tag = |name, text| turned_back(name, text, 10);
    vec![
        tag("lower_case", "A,toc,0,CND,0\n"),
        tag("another_type", "A,PH,0,CND,0\n"),
        tag("empty_tag", "A,,0,CND,0\n"),
        tag("second_lower_case", "A,TOC,0,cnd,0\n"),
        tag("second_of_another_type", "A,TOC,0,ORP,0\n"),
        tag("second_empty", "A,TOC,0,,0\n"),
        tag("exchanged", "A,CND,0,TOC,0\n"),
        tag("first_twice", "A,TOC,0,TOC,0\n"),
        tag("second_twice", "A,CND,0,CND,0\n"),
        tag("shorter", "A,TO,0,CND,0\n"),
        tag("longer", "A,TOCX,0,CND,0\n"),
        tag("blank_before", "A, TOC,0,CND,0\n"),
        tag("blank_behind", "A,TOC ,0,CND,0\n"),
        tag("byte_13_behind", "A,TOC\r,0,CND,0\n"),
        tag("byte_0", "A,TOC\0,0,CND,0\n"),
        tag("code_for_tag", "A,1,0,4,0\n"),
        tag("unknown_tag", "A,XYZ,0,CND,0\n"),
        tag("both_wrong", "A,PH,0,PH,0\n"),
    ]
}

pub fn values() -> Vec<KnownReading> {
    let quiet = |name, value| under_toc(name, value, Ok(Verdict::Quiet));
    let form = |name, value| under_toc(name, value, Err(3));
    let range = |name, value| under_toc(name, value, Err(4));
    vec![
        quiet("plain_0", "0"),
        quiet("plain_2000", "2000"),
        quiet("below_1", "<1"),
        quiet("below_2000", "<2000"),
        range("plain_2001", "2001"),
        range("minus_1", "-1"),
        range("below_0", "<0"),
        range("below_2001", "<2001"),
        range("below_minus_1", "<-1"),
        range("above_16_bits", "65537"),
        range("above_32_bits", "4294967297"),
        range("above_64_bits", "18446744073709551617"),
        range("below_above_64_bits", "<18446744073709551617"),
        form("value_empty", ""),
        form("minus_alone", "-"),
        form("below_alone", "<"),
        form("below_twice", "<<1"),
        form("minus_0", "-0"),
        form("below_minus_0", "<-0"),
        form("leading_0", "05"),
        form("below_leading_0", "<05"),
        form("plus_1", "+1"),
        form("blank_before", " 1"),
        form("blank_behind", "1 "),
        form("point", "1.0"),
        form("letter", "A"),
    ]
}

/// Two faults at once.
pub fn orders() -> Vec<KnownReading> {
    let faulty = || EnvelopeFigures {
        moves: 1_000_001,
        ..record()
    };
    let long = "A".repeat(TEXT_LIMIT + 1);
    vec![
        turned_back("form_under_wrong_tag", "A,PH,05,CND,0\n", 3),
        turned_back("wrong_tag_then_form", "A,PH,0,CND,05\n", 3),
        turned_back("form_then_wrong_tag", "A,TOC,05,PH,0\n", 3),
        turned_back("wrong_tag_and_label", "a,PH,0,CND,0\n", 3),
        turned_back("wrong_tag_without_line_end", "A,PH,0,CND,0", 3),
        turned_back("wrong_tag_and_field_too_many", "A,PH,0,CND,0,\n", 3),
        turned_back("range_under_wrong_tag", "A,PH,2001,CND,0\n", 10),
        turned_back("range_of_the_wrong_tag", "A,CND,3000,CND,0\n", 10),
        turned_back("wrong_tag_then_range", "A,PH,0,CND,4001\n", 10),
        turned_back("range_then_wrong_tag", "A,TOC,2001,PH,0\n", 10),
        turned_back("below_0_then_wrong_tag", "A,TOC,<0,PH,0\n", 10),
        turned_back("range_then_form", "A,TOC,2001,CND,05\n", 3),
        turned_back("form_then_range", "A,TOC,05,CND,4001\n", 3),
        turned_back("range_without_line_end", "A,TOC,2001,CND,0", 3),
        turned_back("range_and_two_lines", "A,TOC,2001,CND,0\nA\n", 3),
        turned_back("range_under_own_tags", "A,TOC,0,CND,4001\n", 4),
        turned_back("range_twice", "A,TOC,2001,CND,4001\n", 4),
        refused("figures_before_empty", faulty(), "", 8, 0),
        refused("figures_before_length", faulty(), long.clone(), 8, 0),
        refused("figures_before_form", faulty(), "A\n", 8, 0),
        refused("figures_before_tag", faulty(), "A,PH,0,CND,0\n", 8, 0),
        refused("figures_before_range", faulty(), "A,TOC,2001,CND,0\n", 8, 0),
        refused("figures_before_quiet", faulty(), "A,TOC,0,CND,0\n", 8, 0),
        refused("figures_before_alarm", faulty(), "A,TOC,0,CND,9\n", 8, 0),
        refused("length_before_form", record(), long, 1, 0),
    ]
}

/// The record's figures with one of them changed.
pub(crate) fn changed(change: impl FnOnce(&mut EnvelopeFigures)) -> EnvelopeFigures {
    let mut figures = record();
    change(&mut figures);
    figures
}

/// Row A of the record, Quiet but for the figures.
const ROW_A: &str = "A,TOC,0,CND,0\n";

pub fn figures_outside() -> Vec<KnownReading> {
    let outside = |name, figures| refused(name, figures, ROW_A, 8, 0);
    let centre =
        |name, place: usize, x| outside(name, changed(|figures| figures.scaled_centre[place] = x));
    let radius = |name, m| outside(name, changed(|figures| figures.scaled_squared_radius = m));
    let bound = |name, l| outside(name, changed(|figures| figures.scaled_lower_bound = l));
    let nine = EnvelopeFigures {
        n: 9,
        types: vec![1; 9],
        scaled_centre: vec![0; 9],
        ..record()
    };
    vec![
        outside("channels_0", changed(|figures| figures.n = 0)),
        outside("channels_9", nine),
        outside(
            "channels_in_32_bits",
            changed(|figures| figures.n = (1 << 32) + 2),
        ),
        outside("channels_most", changed(|figures| figures.n = usize::MAX)),
        outside("code_0", changed(|figures| figures.types[0] = 0)),
        outside("code_9", changed(|figures| figures.types[0] = 9)),
        outside("code_0_last", changed(|figures| figures.types[1] = 0)),
        outside("code_9_last", changed(|figures| figures.types[1] = 9)),
        outside("code_255", changed(|figures| figures.types[1] = 255)),
        centre("centre_above", 0, 262_144_001),
        centre("centre_below", 0, -262_144_001),
        centre("centre_above_last", 1, 262_144_001),
        centre("centre_below_last", 1, -262_144_001),
        centre("centre_least", 0, i64::MIN),
        centre("centre_most", 1, i64::MAX),
        radius("radius_above", MOST + 1),
        radius("radius_most", u64::MAX),
        bound("bound_above", MOST + 1),
        bound("bound_most", u64::MAX),
        outside(
            "moves_1000001",
            changed(|figures| figures.moves = 1_000_001),
        ),
        outside("moves_most", changed(|figures| figures.moves = u32::MAX)),
        outside("settled_2", changed(|figures| figures.settled = 2)),
        outside(
            "settled_most",
            changed(|figures| figures.settled = u32::MAX),
        ),
        outside("types_short", changed(|figures| figures.types = vec![1])),
        outside("types_none", changed(|figures| figures.types.clear())),
        outside(
            "centre_short",
            changed(|figures| figures.scaled_centre = vec![0]),
        ),
        outside(
            "centre_none",
            changed(|figures| figures.scaled_centre.clear()),
        ),
    ]
}

/// Figures at their limits. From X of 262,144,000 in the first channel the row is as far as the
/// centre is from 0: s is 262,144,000² + 262,144².
pub fn figures_at_the_limits() -> Vec<KnownReading> {
    let within = |name, figures| quiet(name, figures, ROW_A);
    let far = |centre| {
        changed(|figures| {
            figures.scaled_centre[0] = centre;
            figures.scaled_squared_radius = 68_719_476_736_000_000 + 68_719_476_736;
        })
    };
    vec![
        within(
            "radius_limit",
            changed(|figures| figures.scaled_squared_radius = MOST),
        ),
        within(
            "bound_limit",
            changed(|figures| figures.scaled_lower_bound = MOST),
        ),
        within("bound_0", changed(|figures| figures.scaled_lower_bound = 0)),
        within("centre_limit", far(262_144_000)),
        within("centre_limit_below", far(-262_144_000)),
        within(
            "moves_1000000",
            changed(|figures| figures.moves = 1_000_000),
        ),
        within("moves_0", changed(|figures| figures.moves = 0)),
        within("settled_0", changed(|figures| figures.settled = 0)),
        within(
            "places_past_the_channels",
            changed(|figures| {
                figures.types.extend([0, 9, 255]);
                figures
                    .scaled_centre
                    .extend([262_144_001, i64::MIN, i64::MAX]);
            }),
        ),
    ]
}

/// Every list.
pub fn all() -> Vec<KnownReading> {
    [
        examples(),
        verdicts(),
        edges(),
        ranges(),
        below_detection(),
        lengths(),
        lines(),
        tags(),
        values(),
        orders(),
        figures_outside(),
        figures_at_the_limits(),
    ]
    .concat()
}
