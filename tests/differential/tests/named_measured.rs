//! Measured readings of each answer, at the limits and with lent values of every length, each by a
//! test of its own.

use differential::compare_measured::MeasuredReading;
use differential::named;
use differential::product::given;
use outside::known_measured::KnownMeasured;
use outside::known_readings::{self, record};
use outside::known_texts;
use outside::random::Random;
use outside::readings::EnvelopeFigures;
use outside::reference::CHANNEL_TYPES;
use outside::rules::{BUFFER_TOO_SHORT, Refusal};

/// The product gives the answer that is written down, with so many places lent, and the wrapper the
/// same but for 13.
fn holds(list: Vec<KnownMeasured>, name: &str) {
    let known = list.into_iter().find(|known| known.name == name);
    let known = known.expect("a known measured reading");
    let reading = MeasuredReading::new(&known.figures, &known.text);
    if known.outcome == Err(BUFFER_TOO_SHORT) {
        assert!(reading.outcome.is_ok(), "the outside implementation");
    } else {
        assert_eq!(reading.outcome, known.outcome, "the outside implementation");
    }
    let owed = known.outcome.map_or_else(|refusal| refusal.number, |_| 0);
    assert_eq!(reading.compare(&mut Random::new(41), known.places), owed);
    reading.compare_wrapper();
}

named!(examples, outside::known_measured::examples:
    row_a row_b row_c centre toc_7 both_highest row_a_budget_1 row_b_budget_1 ph_for_toc
);

named!(below_detection, outside::known_measured::below_detection:
    below_1 below_2 below_50_and_51 below_last below_last_outside
);

named!(below_refused, outside::known_measured::below_refused:
    below_0 below_2001 below_minus_1 below_minus_0
);

named!(below_highs, outside::known_measured::below_highs:
    below_highest below_first below_beside_negatives below_every_high
);

named!(edges, outside::known_measured::edges:
    m_0_s_0 m_0_s_1 m_1_s_1 m_0_at_7 m_0_at_minus_7 s_is_m s_is_m_less_1 s_is_m_and_1 minus_s_is_m
    minus_s_is_m_and_1 odd_s_is_m odd_s_is_m_and_1
);

named!(centres, outside::known_measured::centres:
    x_highest_from_low x_lowest_from_high x_highest_at_high x_lowest_from_0 largest_s_is_m
    largest_s_is_m_and_1 largest_s_of_0 x_above x_below
);

named!(ranges, outside::known_measured::ranges:
    toc_low toc_high tc_low tc_high ic_low ic_high cnd_low cnd_high tmp_low tmp_high ph_low ph_high
    flw_low flw_high orp_low orp_high
);

named!(channels, outside::known_measured::channels:
    lows highs each_its_own each_in_turn_from_the_last eight_of_one_type twice twice_exchanged
    twice_with_another_between once_for_twice
);

named!(rooms, outside::known_measured::rooms:
    none_of_2 one_of_2 two_of_2 three_of_2 eight_of_2 nine_of_2 none_of_1 one_of_1 two_of_1
    none_of_8 seven_of_8 eight_of_8 nine_of_8 alarm_in_one_of_2 below_in_one_of_2
    two_of_2_of_longer_figures one_of_2_of_longer_figures
);

named!(refusals, outside::known_measured::refusals:
    channels_0 channels_9 channels_most types_short types_none centre_short centre_none code_0
    code_9_last radius_above bound_above moves_1000001 ending_2 ending_most text_empty
    text_65537_bytes text_65536_bytes no_line_end two_lines leading_0 label_lower_case
    channel_too_few channel_too_many first_tag last_tag tags_exchanged first_value last_value
    last_value_negative value_above_64_bits too_few_places
);

named!(orders, outside::known_measured::orders:
    figures_before_empty figures_before_length figures_before_form figures_before_tag
    figures_before_range figures_before_room figures_before_empty_and_room channels_0_before_room
    channels_9_before_room length_before_form length_before_tag length_before_range
    empty_before_room length_before_room form_then_wrong_tag wrong_tag_then_form form_then_range
    range_then_form form_before_room channel_too_few_before_room wrong_tag_then_range
    range_then_wrong_tag range_under_wrong_tag wrong_tag_twice tag_before_room range_twice
    range_before_room last_range_before_room last_range_before_no_place
    form_before_tag_range_and_room tag_before_range_and_room
);

/// The call in numbers: the record's rows, an Alarm, and each refusal leaves the values as they were.
#[test]
fn answers_in_numbers() {
    let figures = given(&record());
    let measure = |text: &[u8], length: usize| {
        let mut values = [9; 4];
        let (types, centre) = ([1, 4], [196_608, 262_144]);
        let lent = &mut values[..length];
        let answer = cundarivo::measure_into(figures, &types, &centre, text, lent);
        let numbers = (answer.number, answer.line, answer.verdict);
        let distances = (answer.excess, answer.scaled_squared_distance);
        (numbers, distances, values)
    };
    let (edge, zeros) = ((0, 107_374_182_400), (0, 0));
    let row_c: &[u8] = b"C,TOC,0,CND,8\n";
    assert_eq!(measure(row_c, 2), ((0, 0, 1), edge, [0, 8, 9, 9]));
    assert_eq!(measure(row_c, 4), ((0, 0, 1), edge, [0, 8, 9, 9]));
    assert_eq!(measure(row_c, 1), ((13, 0, 0), zeros, [9; 4]));
    assert_eq!(measure(row_c, 0), ((13, 0, 0), zeros, [9; 4]));
    // 25 + 9 of 25
    let far = (38_654_705_664, 146_028_888_064);
    let alarm = measure(b"A,TOC,8,CND,<3\n", 3);
    assert_eq!(alarm, ((0, 0, 2), far, [8, 1, 9, 9]));
    let refusals: [(&[u8], _); 4] = [
        (b"A,TOC,2001,CND,0\n", (4, 1, 0)),
        (b"A,TOC,2001,PH,0\n", (10, 1, 0)),
        (b"A,TOC,2001,PH,00\n", (3, 1, 0)),
        (b"", (1, 0, 0)),
    ];
    for (text, numbers) in refusals {
        for length in 0..=4 {
            assert_eq!(measure(text, length), (numbers, zeros, [9; 4]));
        }
    }
}

/// A known reading is measured as it is judged, whatever the length of the lent values.
#[test]
fn every_known_reading_is_measured() {
    let mut random = Random::new(42);
    let (mut accepted, mut short) = (0, 0);
    for known in known_readings::all() {
        let reading = MeasuredReading::new(&known.figures, &known.text);
        let verdict = reading.outcome.as_ref().map(|measured| measured.verdict);
        assert_eq!(verdict.map_err(|refusal| *refusal), known.outcome);
        reading.compare_wrapper();
        let n = known.figures.n.min(8);
        for length in (0..=n + 1).chain([8, 9, 64]) {
            match reading.compare(&mut random, length) {
                0 => accepted += 1,
                13 => short += 1,
                number => assert_eq!(Some(number), known.outcome.err().map(|r| r.number)),
            }
        }
    }
    assert!(accepted > 200 && short > 80, "{accepted}, {short}");
}

/// Document 01: a value outside its type's range, for every type and on each side.
#[test]
fn values_just_outside_their_ranges() {
    let list = known_texts::just_outside();
    assert_eq!(list.len(), 24);
    for (tag, value) in list {
        let code = CHANNEL_TYPES.iter().find(|channel| channel.tag == tag);
        let figures = EnvelopeFigures {
            n: 1,
            types: vec![code.expect("a known tag").code],
            ..record()
        };
        let reading = MeasuredReading::new(&figures, format!("A,{tag},{value}\n").as_bytes());
        assert_eq!(reading.outcome, Err(Refusal { number: 4, line: 1 }));
        for length in 0..=2 {
            assert_eq!(reading.compare(&mut Random::new(43), length), 4);
        }
    }
}

/// Places past n change no answer, and no more than n places are needed or filled.
#[test]
fn places_past_the_channels_do_not_count() {
    let mut random = Random::new(44);
    let mut accepted = 0;
    for known in outside::known_measured::all() {
        let EnvelopeFigures { n, ref types, .. } = known.figures;
        if n != types.len() || n != known.figures.scaled_centre.len() {
            continue;
        }
        let mut longer = known.figures.clone();
        longer.types.extend([0, 9, 255]);
        longer
            .scaled_centre
            .extend([i64::MIN, 262_144_001, i64::MAX]);
        let number = MeasuredReading::new(&longer, &known.text).compare(&mut random, known.places);
        let owed = known.outcome.map_or_else(|refusal| refusal.number, |_| 0);
        assert_eq!(number, owed, "{}", known.name);
        accepted += u32::from(number == 0);
    }
    assert!(accepted > 50, "{accepted}");
}
