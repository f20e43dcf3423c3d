//! Measured readings by name, with the verdict, s, the values and the refusals that the rules give,
//! written down by hand.

use crate::known_readings::{
    MOST, changed, farthest_reading, one_channel, record, record_with_budget_1, widest,
};
use crate::readings::{EnvelopeFigures, Measured, Verdict};
use crate::reference::TEXT_LIMIT;
use crate::rules::Refusal;

/// A reading by name, the figures that it is measured against, how many places are lent for its
/// values, and the answer.
#[derive(Clone, Debug)]
pub struct KnownMeasured {
    pub name: &'static str,
    pub figures: EnvelopeFigures,
    pub text: Vec<u8>,
    pub places: usize,
    pub outcome: Result<Measured, Refusal>,
}

impl KnownMeasured {
    fn with_places(self, places: usize) -> KnownMeasured {
        KnownMeasured { places, ..self }
    }
}

/// Accepted with this verdict and this s, a place being lent for each value.
fn accepted(
    name: &'static str,
    figures: EnvelopeFigures,
    text: impl Into<Vec<u8>>,
    values: &[i32],
    (verdict, scaled_squared_distance): (Verdict, i128),
) -> KnownMeasured {
    KnownMeasured {
        name,
        figures,
        text: text.into(),
        places: values.len(),
        outcome: Ok(Measured {
            verdict,
            scaled_squared_distance,
            values: values.to_vec(),
        }),
    }
}

/// Quiet with this s.
fn quiet(scaled_squared_distance: i128) -> (Verdict, i128) {
    (Verdict::Quiet, scaled_squared_distance)
}

/// An Alarm with this excess and this s.
fn alarm(excess: i128, scaled_squared_distance: i128) -> (Verdict, i128) {
    (Verdict::Alarm { excess }, scaled_squared_distance)
}

/// Refused by a number at line 0 for 8, 1 and 13, at line 1 for others, with so many places lent.
fn refused(
    name: &'static str,
    figures: EnvelopeFigures,
    text: impl Into<Vec<u8>>,
    places: usize,
    number: u32,
) -> KnownMeasured {
    let line = u32::from(!matches!(number, 8 | 1 | 13));
    KnownMeasured {
        name,
        figures,
        text: text.into(),
        places,
        outcome: Err(Refusal { number, line }),
    }
}

/// A channel of each type, in the order of their codes, with X of 0 and this M.
fn each_type(scaled_squared_radius: u64) -> EnvelopeFigures {
    EnvelopeFigures {
        n: 8,
        types: vec![1, 2, 3, 4, 5, 6, 7, 8],
        scaled_centre: vec![0; 8],
        ..one_channel(1, 0, scaled_squared_radius)
    }
}

/// Channels of these types, with X of 0 and M of 0.
fn from_0(types: &[u8]) -> EnvelopeFigures {
    EnvelopeFigures {
        n: types.len(),
        types: types.to_vec(),
        scaled_centre: vec![0; types.len()],
        ..one_channel(1, 0, 0)
    }
}

/// Row A of the record, at the edge of its ball.
const ROW_A: &str = "A,TOC,0,CND,0\n";
/// 25 D².
const RECORD: i128 = 107_374_182_400;

/// Document 01's record: s in units of D² is the squared distance from (3, 4), or from (0, 4).
pub fn examples() -> Vec<KnownMeasured> {
    let budget_1 = record_with_budget_1;
    let toc = one_channel(1, 0, MOST);
    vec![
        accepted("row_a", record(), ROW_A, &[0, 0], quiet(RECORD)),
        accepted("row_b", record(), "B,TOC,6,CND,0\n", &[6, 0], quiet(RECORD)),
        accepted("row_c", record(), "C,TOC,0,CND,8\n", &[0, 8], quiet(RECORD)),
        accepted("centre", record(), "A,TOC,3,CND,4\n", &[3, 4], quiet(0)),
        // 16 + 16
        accepted(
            "toc_7",
            record(),
            "A,TOC,7,CND,0\n",
            &[7, 0],
            alarm(30_064_771_072, 137_438_953_472),
        ),
        // 1,997² + 3,996²
        accepted(
            "both_highest",
            record(),
            "A,TOC,2000,CND,4000\n",
            &[2_000, 4_000],
            alarm(85_710_367_358_976_000, 85_710_474_733_158_400),
        ),
        // 16
        accepted(
            "row_a_budget_1",
            budget_1(),
            ROW_A,
            &[0, 0],
            quiet(68_719_476_736),
        ),
        // 36 + 16
        accepted(
            "row_b_budget_1",
            budget_1(),
            "B,TOC,6,CND,0\n",
            &[6, 0],
            quiet(223_338_299_392),
        ),
        refused("ph_for_toc", toc, "A,PH,480\n", 1, 10),
    ]
}

/// `<` and a number reads as the whole part of half the number.
pub fn below_detection() -> Vec<KnownMeasured> {
    vec![
        accepted(
            "below_1",
            record(),
            "A,TOC,<1,CND,<1\n",
            &[0, 0],
            quiet(RECORD),
        ),
        // 4 + 9
        accepted(
            "below_2",
            record(),
            "A,TOC,<2,CND,<2\n",
            &[1, 1],
            quiet(55_834_574_848),
        ),
        // 22² + 21²
        accepted(
            "below_50_and_51",
            record(),
            "A,TOC,<50,CND,<51\n",
            &[25, 25],
            alarm(3_865_470_566_400, 3_972_844_748_800),
        ),
        // 16 + 1
        accepted(
            "below_last",
            record(),
            "A,TOC,7,CND,<7\n",
            &[7, 3],
            quiet(73_014_444_032),
        ),
        // 16 + 16
        accepted(
            "below_last_outside",
            record(),
            "A,TOC,7,CND,<1\n",
            &[7, 0],
            alarm(30_064_771_072, 137_438_953_472),
        ),
    ]
}

/// `<` and a number out of range, or none.
pub fn below_refused() -> Vec<KnownMeasured> {
    vec![
        refused("below_0", record(), "A,TOC,<0,CND,0\n", 2, 4),
        refused("below_2001", record(), "A,TOC,<2001,CND,0\n", 2, 4),
        refused("below_minus_1", record(), "A,TOC,<-1,CND,0\n", 2, 4),
        refused("below_minus_0", record(), "A,TOC,<-0,CND,0\n", 2, 3),
    ]
}

/// `<` and the high of a type, or a number less by 1.
pub fn below_highs() -> Vec<KnownMeasured> {
    let orp = one_channel(8, -131_072_000, 0);
    vec![
        // 997² + 1,996²
        accepted(
            "below_highest",
            record(),
            "A,TOC,<2000,CND,<4000\n",
            &[1000, 2000],
            alarm(21_380_347_199_488_000, 21_380_454_573_670_400),
        ),
        // 996² + 36
        accepted(
            "below_first",
            record(),
            "A,TOC,<1999,CND,10\n",
            &[999, 10],
            alarm(4_260_723_521_748_992, 4_260_830_895_931_392),
        ),
        // 3,000² from a centre at the low
        accepted(
            "below_beside_negatives",
            orp,
            "A,ORP,<2000\n",
            &[1000],
            alarm(38_654_705_664_000_000, 38_654_705_664_000_000),
        ),
        // 1,000² + 4 · 2,000² + 750² + 700² + 1,000²
        accepted(
            "below_every_high",
            each_type(0),
            "-,TOC,<2000,TC,<4000,IC,<4000,CND,<4000,TMP,<1500,PH,<1400,FLW,<4000,ORP,<2000\n",
            &[1000, 2000, 2000, 2000, 750, 700, 2000, 1000],
            alarm(81_829_864_407_040_000, 81_829_864_407_040_000),
        ),
    ]
}

/// s against M in units of 1: s is the square of D · value - X.
pub fn edges() -> Vec<KnownMeasured> {
    let orp = |centre, radius| one_channel(8, centre, radius);
    let of_7 = |name, radius, text, value: i32, verdict| {
        // (65,536 · 7)²
        accepted(
            name,
            orp(0, radius),
            text,
            &[value],
            (verdict, 210_453_397_504),
        )
    };
    let (within, one_more) = (Verdict::Quiet, Verdict::Alarm { excess: 1 });
    vec![
        accepted("m_0_s_0", orp(0, 0), "A,ORP,0\n", &[0], quiet(0)),
        accepted("m_0_s_1", orp(1, 0), "A,ORP,0\n", &[0], alarm(1, 1)),
        accepted("m_1_s_1", orp(-1, 1), "A,ORP,0\n", &[0], quiet(1)),
        accepted("m_0_at_7", orp(458_752, 0), "A,ORP,7\n", &[7], quiet(0)),
        accepted(
            "m_0_at_minus_7",
            orp(-458_752, 0),
            "A,ORP,-7\n",
            &[-7],
            quiet(0),
        ),
        of_7("s_is_m", 210_453_397_504, "A,ORP,7\n", 7, within),
        of_7("s_is_m_less_1", 210_453_397_505, "A,ORP,7\n", 7, within),
        of_7("s_is_m_and_1", 210_453_397_503, "A,ORP,7\n", 7, one_more),
        of_7("minus_s_is_m", 210_453_397_504, "A,ORP,-7\n", -7, within),
        of_7(
            "minus_s_is_m_and_1",
            210_453_397_503,
            "A,ORP,-7\n",
            -7,
            one_more,
        ),
        // (65,536 · -2,000 - 262,143,999)², which no binary64 holds
        accepted(
            "odd_s_is_m",
            orp(262_143_999, 154_618_821_869_568_001),
            "A,ORP,-2000\n",
            &[-2_000],
            quiet(154_618_821_869_568_001),
        ),
        accepted(
            "odd_s_is_m_and_1",
            orp(262_143_999, 154_618_821_869_568_000),
            "A,ORP,-2000\n",
            &[-2_000],
            alarm(1, 154_618_821_869_568_001),
        ),
    ]
}

/// X at its limits, and the largest s.
pub fn centres() -> Vec<KnownMeasured> {
    let most = i128::from(MOST);
    let wide = |name, radius, verdict| {
        accepted(
            name,
            widest(radius),
            farthest_reading(),
            &[4_000; 8],
            verdict,
        )
    };
    let one =
        |name, figures, text, value: i32, verdict| accepted(name, figures, text, &[value], verdict);
    vec![
        // (131,072,000 + 262,144,000)²
        one(
            "x_highest_from_low",
            one_channel(8, 262_144_000, 0),
            "A,ORP,-2000\n",
            -2_000,
            alarm(154_618_822_656_000_000, 154_618_822_656_000_000),
        ),
        one(
            "x_lowest_from_high",
            one_channel(8, -262_144_000, 154_618_822_656_000_000),
            "A,ORP,2000\n",
            2_000,
            quiet(154_618_822_656_000_000),
        ),
        one(
            "x_highest_at_high",
            one_channel(4, 262_144_000, 0),
            "A,CND,4000\n",
            4_000,
            quiet(0),
        ),
        // 262,144,000²
        one(
            "x_lowest_from_0",
            one_channel(7, -262_144_000, MOST),
            "A,FLW,0\n",
            0,
            quiet(68_719_476_736_000_000),
        ),
        wide("largest_s_is_m", MOST, quiet(most)),
        wide("largest_s_is_m_and_1", MOST - 1, alarm(1, most)),
        wide("largest_s_of_0", 0, alarm(most, most)),
        refused("x_above", one_channel(8, 262_144_001, 0), "A,ORP,0\n", 1, 8),
        refused(
            "x_below",
            one_channel(8, -262_144_001, 0),
            "A,ORP,0\n",
            1,
            8,
        ),
    ]
}

/// The ends of each range by themselves, from 0: s is D² times the square of the value.
const ENDS: [(&str, u8, &str, i32, i128); 16] = [
    ("toc_low", 1, "A,TOC,0\n", 0, 0),
    ("toc_high", 1, "A,TOC,2000\n", 2_000, 17_179_869_184_000_000),
    ("tc_low", 2, "A,TC,0\n", 0, 0),
    ("tc_high", 2, "A,TC,4000\n", 4_000, 68_719_476_736_000_000),
    ("ic_low", 3, "A,IC,0\n", 0, 0),
    ("ic_high", 3, "A,IC,4000\n", 4_000, 68_719_476_736_000_000),
    ("cnd_low", 4, "A,CND,0\n", 0, 0),
    ("cnd_high", 4, "A,CND,4000\n", 4_000, 68_719_476_736_000_000),
    ("tmp_low", 5, "A,TMP,-200\n", -200, 171_798_691_840_000),
    ("tmp_high", 5, "A,TMP,1500\n", 1_500, 9_663_676_416_000_000),
    ("ph_low", 6, "A,PH,0\n", 0, 0),
    ("ph_high", 6, "A,PH,1400\n", 1_400, 8_418_135_900_160_000),
    ("flw_low", 7, "A,FLW,0\n", 0, 0),
    ("flw_high", 7, "A,FLW,4000\n", 4_000, 68_719_476_736_000_000),
    (
        "orp_low",
        8,
        "A,ORP,-2000\n",
        -2_000,
        17_179_869_184_000_000,
    ),
    ("orp_high", 8, "A,ORP,2000\n", 2_000, 17_179_869_184_000_000),
];

/// M is 0, so that 0 alone is Quiet.
pub fn ranges() -> Vec<KnownMeasured> {
    let end = |(name, code, text, value, s): (_, _, &str, i32, i128)| {
        let verdict = if s == 0 { quiet(0) } else { alarm(s, s) };
        accepted(name, from_0(&[code]), text, &[value], verdict)
    };
    ENDS.into_iter().map(end).collect()
}

/// Eight channels, and the same type in several.
pub fn channels() -> Vec<KnownMeasured> {
    // 1 + 4 + 9 + 16 + 25 + 36 + 49 + 64
    let of_1_to_8 = || alarm(876_173_328_384, 876_173_328_384);
    vec![
        accepted(
            "lows",
            each_type(MOST),
            "LOW,TOC,0,TC,0,IC,0,CND,0,TMP,-200,PH,0,FLW,0,ORP,-2000\n",
            &[0, 0, 0, 0, -200, 0, 0, -2_000],
            quiet(17_351_667_875_840_000),
        ),
        accepted(
            "highs",
            each_type(MOST),
            "HIGH,TOC,2000,TC,4000,IC,4000,CND,4000,TMP,1500,PH,1400,FLW,4000,ORP,2000\n",
            &[2_000, 4_000, 4_000, 4_000, 1_500, 1_400, 4_000, 2_000],
            quiet(327_319_457_628_160_000),
        ),
        accepted(
            "each_its_own",
            each_type(0),
            "A,TOC,1,TC,2,IC,3,CND,4,TMP,-5,PH,6,FLW,7,ORP,-8\n",
            &[1, 2, 3, 4, -5, 6, 7, -8],
            of_1_to_8(),
        ),
        accepted(
            "each_in_turn_from_the_last",
            from_0(&[8, 7, 6, 5, 4, 3, 2, 1]),
            "A,ORP,-8,FLW,7,PH,6,TMP,-5,CND,4,IC,3,TC,2,TOC,1\n",
            &[-8, 7, 6, -5, 4, 3, 2, 1],
            of_1_to_8(),
        ),
        accepted(
            "eight_of_one_type",
            from_0(&[5; 8]),
            "A,TMP,1,TMP,-2,TMP,3,TMP,-4,TMP,5,TMP,-6,TMP,7,TMP,-8\n",
            &[1, -2, 3, -4, 5, -6, 7, -8],
            of_1_to_8(),
        ),
        // 1 + 4
        accepted(
            "twice",
            from_0(&[1, 1]),
            "A,TOC,1,TOC,2\n",
            &[1, 2],
            alarm(21_474_836_480, 21_474_836_480),
        ),
        accepted(
            "twice_exchanged",
            from_0(&[1, 1]),
            "A,TOC,2,TOC,1\n",
            &[2, 1],
            alarm(21_474_836_480, 21_474_836_480),
        ),
        // 9 + 16 + 4
        accepted(
            "twice_with_another_between",
            from_0(&[1, 4, 1]),
            "A,TOC,3,CND,<9,TOC,2\n",
            &[3, 4, 2],
            alarm(124_554_051_584, 124_554_051_584),
        ),
        refused("once_for_twice", from_0(&[1, 1]), "A,TOC,1,CND,2\n", 2, 10),
    ]
}

/// As many places as n, fewer and more; 13 comes only where the reading is accepted.
pub fn rooms() -> Vec<KnownMeasured> {
    let row_a = |name| accepted(name, record(), ROW_A, &[0, 0], quiet(RECORD));
    let short = |name, places| refused(name, record(), ROW_A, places, 13);
    let toc = || one_channel(1, 0, MOST);
    let seven = |name| {
        accepted(
            name,
            one_channel(1, 458_752, 0),
            "A,TOC,7\n",
            &[7],
            quiet(0),
        )
    };
    let eight = |name| {
        let most = i128::from(MOST);
        let far = alarm(most, most);
        accepted(name, widest(0), farthest_reading(), &[4_000; 8], far)
    };
    let eight_short = |name, places| refused(name, widest(0), farthest_reading(), places, 13);
    let longer = changed(|figures| {
        figures.types.extend([0, 9, 255]);
        figures
            .scaled_centre
            .extend([262_144_001, i64::MIN, i64::MAX]);
    });
    vec![
        short("none_of_2", 0),
        short("one_of_2", 1),
        row_a("two_of_2").with_places(2),
        row_a("three_of_2").with_places(3),
        row_a("eight_of_2").with_places(8),
        row_a("nine_of_2").with_places(9),
        refused("none_of_1", toc(), "A,TOC,7\n", 0, 13),
        seven("one_of_1").with_places(1),
        seven("two_of_1").with_places(2),
        eight_short("none_of_8", 0),
        eight_short("seven_of_8", 7),
        eight("eight_of_8").with_places(8),
        eight("nine_of_8").with_places(9),
        refused("alarm_in_one_of_2", record(), "A,TOC,7,CND,0\n", 1, 13),
        refused("below_in_one_of_2", record(), "A,TOC,<7,CND,<7\n", 1, 13),
        accepted(
            "two_of_2_of_longer_figures",
            longer.clone(),
            ROW_A,
            &[0, 0],
            quiet(RECORD),
        ),
        refused("one_of_2_of_longer_figures", longer, ROW_A, 1, 13),
    ]
}

/// Each refusal by itself, places enough being lent but for 13.
pub fn refusals() -> Vec<KnownMeasured> {
    let outside = |name, figures| refused(name, figures, ROW_A, 8, 8);
    let turned_back = |name, text: &str, number| refused(name, record(), text, 8, number);
    let nine = EnvelopeFigures {
        types: vec![1; 9],
        scaled_centre: vec![0; 9],
        ..changed(|figures| figures.n = 9)
    };
    let long = "A".repeat(TEXT_LIMIT + 1);
    vec![
        outside("channels_0", changed(|figures| figures.n = 0)),
        outside("channels_9", nine),
        outside("channels_most", changed(|figures| figures.n = usize::MAX)),
        outside("types_short", changed(|figures| figures.types = vec![1])),
        outside("types_none", changed(|figures| figures.types.clear())),
        outside(
            "centre_short",
            changed(|figures| figures.scaled_centre = vec![0]),
        ),
        outside(
            "centre_none",
            changed(|figures| figures.scaled_centre.clear()),
        ),
        outside("code_0", changed(|figures| figures.types[0] = 0)),
        outside("code_9_last", changed(|figures| figures.types[1] = 9)),
        outside(
            "radius_above",
            changed(|figures| figures.scaled_squared_radius = MOST + 1),
        ),
        outside(
            "bound_above",
            changed(|figures| figures.scaled_lower_bound = MOST + 1),
        ),
        outside(
            "moves_1000001",
            changed(|figures| figures.moves = 1_000_001),
        ),
        outside("ending_2", changed(|figures| figures.settled = 2)),
        outside("ending_most", changed(|figures| figures.settled = u32::MAX)),
        turned_back("text_empty", "", 1),
        turned_back("text_65537_bytes", &long, 1),
        turned_back("text_65536_bytes", &long[1..], 3),
        turned_back("no_line_end", "A,TOC,0,CND,0", 3),
        turned_back("two_lines", "A,TOC,0,CND,0\nA,TOC,0,CND,0\n", 3),
        turned_back("leading_0", "A,TOC,0,CND,05\n", 3),
        turned_back("label_lower_case", "a,TOC,0,CND,0\n", 3),
        turned_back("channel_too_few", "A,TOC,0\n", 3),
        turned_back("channel_too_many", "A,TOC,0,CND,0,TOC,0\n", 3),
        turned_back("first_tag", "A,PH,0,CND,0\n", 10),
        turned_back("last_tag", "A,TOC,0,PH,0\n", 10),
        turned_back("tags_exchanged", "A,CND,0,TOC,0\n", 10),
        turned_back("first_value", "A,TOC,2001,CND,0\n", 4),
        turned_back("last_value", "A,TOC,0,CND,4001\n", 4),
        turned_back("last_value_negative", "A,TOC,0,CND,-1\n", 4),
        turned_back(
            "value_above_64_bits",
            "A,TOC,18446744073709551617,CND,0\n",
            4,
        ),
        refused("too_few_places", record(), ROW_A, 1, 13),
    ]
}

/// Two faults or more at once, in the order 8, 1, 3, 10, 4, 13.
pub fn orders() -> Vec<KnownMeasured> {
    let faulty = || changed(|figures| figures.moves = 1_000_001);
    let figures = |name, text: &str, places| refused(name, faulty(), text, places, 8);
    let reading = |name, text: &str, places, number| refused(name, record(), text, places, number);
    let above = TEXT_LIMIT + 1;
    let (empty, none) = ("", 0);
    let no_form = "A".repeat(above);
    // The bytes of "A,,0,CND,0\n" and of "A,TOC,,CND,0\n".
    let long_tag = format!("A,{},0,CND,0\n", "C".repeat(above - 11));
    let long_value = format!("A,TOC,{},CND,0\n", "1".repeat(above - 13));
    let (few_channels, nine) = (
        changed(|figures| figures.n = 0),
        changed(|figures| figures.n = 9),
    );
    vec![
        figures("figures_before_empty", empty, 8),
        figures("figures_before_length", &no_form, 8),
        figures("figures_before_form", "A\n", 8),
        figures("figures_before_tag", "A,PH,0,CND,0\n", 8),
        figures("figures_before_range", "A,TOC,2001,CND,0\n", 8),
        figures("figures_before_room", ROW_A, none),
        figures("figures_before_empty_and_room", empty, none),
        refused("channels_0_before_room", few_channels, ROW_A, none, 8),
        refused("channels_9_before_room", nine, ROW_A, none, 8),
        reading("length_before_form", &no_form, 8, 1),
        reading("length_before_tag", &long_tag, 8, 1),
        reading("length_before_range", &long_value, 8, 1),
        reading("empty_before_room", empty, none, 1),
        reading("length_before_room", &no_form, 1, 1),
        reading("form_then_wrong_tag", "A,TOC,05,PH,0\n", 8, 3),
        reading("wrong_tag_then_form", "A,PH,0,CND,05\n", 8, 3),
        reading("form_then_range", "A,TOC,05,CND,4001\n", 8, 3),
        reading("range_then_form", "A,TOC,2001,CND,05\n", 8, 3),
        reading("form_before_room", "A,TOC,0,CND,0", 1, 3),
        reading("channel_too_few_before_room", "A,TOC,0\n", 1, 3),
        reading("wrong_tag_then_range", "A,PH,0,CND,4001\n", 8, 10),
        reading("range_then_wrong_tag", "A,TOC,2001,PH,0\n", 8, 10),
        reading("range_under_wrong_tag", "A,PH,2001,CND,0\n", 8, 10),
        reading("wrong_tag_twice", "A,PH,0,PH,0\n", 8, 10),
        reading("tag_before_room", "A,PH,0,CND,0\n", 1, 10),
        reading("range_twice", "A,TOC,2001,CND,4001\n", 8, 4),
        reading("range_before_room", "A,TOC,2001,CND,0\n", 1, 4),
        reading("last_range_before_room", "A,TOC,0,CND,4001\n", 1, 4),
        reading("last_range_before_no_place", "A,TOC,0,CND,4001\n", none, 4),
        reading(
            "form_before_tag_range_and_room",
            "a,PH,2001,CND,4001\n",
            none,
            3,
        ),
        reading(
            "tag_before_range_and_room",
            "A,TOC,2001,PH,4001\n",
            none,
            10,
        ),
    ]
}

/// Every list.
pub fn all() -> Vec<KnownMeasured> {
    [
        examples(),
        below_detection(),
        below_refused(),
        below_highs(),
        edges(),
        centres(),
        ranges(),
        channels(),
        rooms(),
        refusals(),
        orders(),
    ]
    .concat()
}
