//! Bad readings and figures, those at the limits and the examples of document 01, each by a test of
//! its own.

use differential::compare_reading::Reading;
use differential::named;
use outside::known_readings::KnownReading;
use outside::known_texts;
use outside::readings::{EnvelopeFigures, Verdict};
use outside::reference::CHANNEL_TYPES;
use outside::rules::Refusal;

/// The product gives the answer that is written down.
fn holds(list: Vec<KnownReading>, name: &str) {
    let known = list.into_iter().find(|known| known.name == name);
    let known = known.expect("a known reading");
    let reading = Reading::new(&known.figures, &known.text);
    assert_eq!(reading.outcome, known.outcome, "the outside implementation");
    reading.compare();
    reading.compare_wrapper();
}

named!(examples, outside::known_readings::examples:
    row_a row_b row_c row_a_budget_1 row_b_budget_1 row_c_budget_1 ph_for_toc
);

named!(verdicts, outside::known_readings::verdicts:
    centre fourth_corner below_both_highest toc_7 cnd_9 cnd_10 below_and_10 both_highest
    toc_7_budget_1
);

named!(edges, outside::known_readings::edges:
    s_0_of_0 s_0_of_1 s_1_of_0 s_1_of_1 s_1_of_0_below s_1_of_0_beside_1 s_1_of_1_beside_1
    s_4_of_1 seven_of_s seven_of_s_and_1 seven_of_s_less_1 minus_7_of_s minus_7_of_s_less_1
    tmp_of_s tmp_of_s_less_1 orp_of_s orp_of_0 odd_s_of_s odd_s_of_s_less_1
    largest_s_of_s largest_s_of_s_less_1 largest_s_of_0
);

named!(ranges, outside::known_readings::ranges:
    lows highs below_highs below_highs_less_1 below_1_each
);

named!(below_detection, outside::known_readings::below_detection:
    below_1_at_0 below_1_beside_1 below_2_beside_0 below_2_at_1 below_3_at_1 below_4_beside_1
    below_49_beside_25 below_50_at_25 below_51_at_25 below_52_beside_25 below_1999_at_999
    below_1999_beside_1000 below_2000_at_1000 below_2000_beside_999 below_18_at_the_edge
    below_19_at_the_edge below_20_outside below_21_outside quiet_as_0 alarm_as_0
);

named!(lengths, outside::known_readings::lengths:
    bytes_0 bytes_65536_value bytes_65537_value bytes_65536_tag bytes_65537_tag
    bytes_65536_line_ends bytes_65537_line_ends bytes_65536_no_line_end bytes_65537_no_line_end
);

named!(lines, outside::known_readings::lines:
    no_line_end two_lines two_lines_last_without_end line_end_alone line_end_twice line_end_first
    line_end_for_a_comma line_end_in_a_tag byte_13 byte_0_behind comma_at_the_end comma_first
    commas_alone label_alone channel_too_few channel_too_many value_too_few field_too_many
    values_alone no_label label_0_bytes label_13_bytes label_lower_case label_with_blank
    label_12_bytes label_hyphen label_ref
);

named!(tags, outside::known_readings::tags:
    lower_case another_type empty_tag second_lower_case second_of_another_type second_empty
    exchanged first_twice second_twice shorter longer blank_before blank_behind byte_13_behind
    byte_0 code_for_tag unknown_tag both_wrong
);

named!(values, outside::known_readings::values:
    plain_0 plain_2000 below_1 below_2000 plain_2001 minus_1 below_0 below_2001 below_minus_1
    above_16_bits above_32_bits above_64_bits below_above_64_bits value_empty minus_alone
    below_alone below_twice minus_0 below_minus_0 leading_0 below_leading_0 plus_1 blank_before
    blank_behind point letter
);

named!(orders, outside::known_readings::orders:
    form_under_wrong_tag wrong_tag_then_form form_then_wrong_tag wrong_tag_and_label
    wrong_tag_without_line_end wrong_tag_and_field_too_many range_under_wrong_tag
    range_of_the_wrong_tag wrong_tag_then_range range_then_wrong_tag below_0_then_wrong_tag
    range_then_form form_then_range range_without_line_end range_and_two_lines
    range_under_own_tags range_twice figures_before_empty figures_before_length
    figures_before_form figures_before_tag figures_before_range figures_before_quiet
    figures_before_alarm length_before_form
);

named!(figures_outside, outside::known_readings::figures_outside:
    channels_0 channels_9 channels_in_32_bits channels_most code_0 code_9 code_0_last code_9_last
    code_255 centre_above centre_below centre_above_last centre_below_last centre_least
    centre_most radius_above radius_most bound_above bound_most moves_1000001 moves_most settled_2
    settled_most types_short types_none centre_short centre_none
);

named!(figures_at_the_limits, outside::known_readings::figures_at_the_limits:
    radius_limit bound_limit bound_0 centre_limit centre_limit_below moves_1000000 moves_0
    settled_0 places_past_the_channels
);

/// Document 01: a value outside its type's range, for every type and on each side.
#[test]
fn values_just_outside_their_ranges() {
    let list = known_texts::just_outside();
    assert_eq!(list.len(), 24);
    for (tag, value) in list {
        let code = CHANNEL_TYPES.iter().find(|channel| channel.tag == tag);
        let figures = EnvelopeFigures {
            n: 1,
            types: vec![code.expect("a known tag").code],
            ..outside::known_readings::record()
        };
        let reading = Reading::new(&figures, format!("A,{tag},{value}\n").as_bytes());
        assert_eq!(reading.outcome, Err(Refusal { number: 4, line: 1 }));
        reading.compare();
    }
}

/// The calls of the example, in numbers: the record's rows are Quiet and (7, 0) is an Alarm.
#[test]
fn answers_in_numbers() {
    let figures = cundarivo::FiguresGiven {
        n: 2,
        scaled_squared_radius: 107_374_182_400,
        scaled_lower_bound: 107_374_182_400,
        settled: 1,
        moves: 2,
    };
    let judge = |text: &[u8]| {
        let answer = cundarivo::judge_given(figures, &[1, 4], &[196_608, 262_144], text);
        (answer.number, answer.line, answer.verdict, answer.excess)
    };
    assert_eq!(judge(b"A,TOC,0,CND,0\n"), (0, 0, 1, 0));
    assert_eq!(judge(b"B,TOC,6,CND,0\n"), (0, 0, 1, 0));
    assert_eq!(judge(b"C,TOC,0,CND,8\n"), (0, 0, 1, 0));
    assert_eq!(judge(b"A,TOC,7,CND,0\n"), (0, 0, 2, 30_064_771_072));
    assert_eq!(judge(b"A,TOC,2001,CND,0\n"), (4, 1, 0, 0));
    assert_eq!(judge(b"A,TOC,2001,PH,0\n"), (10, 1, 0, 0));
    assert_eq!(judge(b"A,TOC,2001,PH,00\n"), (3, 1, 0, 0));
    assert_eq!(judge(b""), (1, 0, 0, 0));
}

/// Every figure of the example just outside its limits is refused by 8, whatever the text is.
#[test]
fn figures_outside_come_first() {
    let list = outside::known_readings::figures_outside();
    let texts: [&[u8]; 6] = [
        b"",
        b"\n",
        b"A,TOC,0,CND,0",
        b"A,PH,0,CND,0\n",
        b"A,TOC,2001,CND,0\n",
        b"A,TOC,2000,CND,4000\n",
    ];
    assert!(list.len() > 20);
    for known in list {
        for text in texts {
            let reading = Reading::new(&known.figures, text);
            let refusal = reading.outcome.expect_err("figures outside their limits");
            assert_eq!((refusal.number, refusal.line), (8, 0), "{}", known.name);
            reading.compare();
        }
    }
}

/// Places past n change no answer.
#[test]
fn places_past_the_channels_do_not_count() {
    let mut accepted = 0;
    for known in outside::known_readings::all() {
        let EnvelopeFigures { n, ref types, .. } = known.figures;
        if n != types.len() || n != known.figures.scaled_centre.len() {
            continue;
        }
        let mut longer = known.figures.clone();
        longer.types.extend([0, 9, 255]);
        longer
            .scaled_centre
            .extend([i64::MIN, 262_144_001, i64::MAX]);
        let reading = Reading::new(&longer, &known.text);
        assert_eq!(reading.outcome, known.outcome, "{}", known.name);
        reading.compare();
        accepted += u32::from(reading.outcome.is_ok());
    }
    assert!(accepted > 40, "{accepted}");
}

/// Each of the three rows is at the edge of the record's ball: with M less by 1 it is an Alarm.
#[test]
fn rows_of_the_record_at_the_edge() {
    let smaller = EnvelopeFigures {
        scaled_squared_radius: 107_374_182_399,
        ..outside::known_readings::record()
    };
    for text in ["A,TOC,0,CND,0\n", "B,TOC,6,CND,0\n", "C,TOC,0,CND,8\n"] {
        let reading = Reading::new(&smaller, text.as_bytes());
        assert_eq!(reading.outcome, Ok(Verdict::Alarm { excess: 1 }));
        reading.compare();
    }
}
