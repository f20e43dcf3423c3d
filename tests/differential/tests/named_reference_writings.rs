//! Labelled rows within the rules, at the limits and outside, each by a test of its own.

use differential::compare_reference_writing::ReferenceWriting;
use differential::named;
use outside::known_reference_writings::{self, KnownReferenceWriting};
use outside::random::Random;
use outside::rules::BUFFER_TOO_SHORT;

/// The product gives the answer that is written down in the buffer that is, and in longer ones; where it
/// writes a text, that is read back, and is refused by 13 in shorter buffers.
fn holds(list: Vec<KnownReferenceWriting>, name: &str) {
    let known = list.into_iter().find(|known| known.name == name);
    let known = known.expect("known rows");
    let random = &mut Random::new(88);
    let writing = ReferenceWriting::new(&known.table);
    let owed = known.outcome.clone().map(|text| text.len());
    assert_eq!(writing.compare(random, known.places), owed);
    if owed == Err(BUFFER_TOO_SHORT) {
        assert!(writing.length() > known.places, "{}", writing.shown());
        return;
    }
    assert_eq!(writing.outcome, known.outcome, "the outside implementation");
    for more in [0, 1, 40] {
        let places = writing.length() + more;
        assert_eq!(writing.compare(random, places), owed);
    }
    if let Ok(text) = &known.outcome {
        for places in [0, 1, text.len() - 1] {
            let short = writing.compare(random, places);
            assert_eq!(short, Err(BUFFER_TOO_SHORT), "{}", writing.shown());
        }
        writing.compare_round_trip();
    }
    writing.compare_wrapper();
}

named!(examples, outside::known_reference_writings::examples:
    document one_row negative equal_rows tag_twice
);

named!(at_the_limits, outside::known_reference_writings::at_the_limits:
    rows_256 longest ends_of_every_range
);

named!(past_the_counts, outside::known_reference_writings::past_the_counts:
    places_past_the_rows codes_past_the_channels two_of_three_rows
);

named!(counts_outside, outside::known_reference_writings::counts_outside:
    channels_0 channels_9 channels_most rows_0 rows_0_and_no_labels rows_257 rows_most
    product_wraps_to_0 product_wraps_by_2 product_wraps_to_24 channels_wrap
);

named!(rows_outside, outside::known_reference_writings::rows_outside:
    rows_short no_places coordinate_4001 coordinate_minus_4001 coordinate_largest
    coordinate_smallest
);

named!(codes_outside, outside::known_reference_writings::codes_outside:
    codes_short no_codes code_0 code_9 code_255
);

named!(ends_outside, outside::known_reference_writings::ends_outside:
    no_ends no_labels ends_2_of_3 labels_2_of_3 ends_4_of_3 labels_4_of_3 ends_fall_by_1
    ends_fall_to_0 first_end_beyond first_end_most last_end_falls last_end_beyond last_end_most
    last_end_short all_ends_0 no_bytes byte_missing byte_too_many
);

named!(values, outside::known_reference_writings::values:
    toc_low toc_high toc_below toc_2001 tmp_low tmp_high tmp_below tmp_above ph_low ph_high ph_below
    ph_above orp_low orp_high orp_below orp_above
);

named!(values_to_4000, outside::known_reference_writings::values_to_4000:
    tc_low tc_high tc_below tc_above ic_low ic_high ic_below ic_above cnd_low cnd_high cnd_below
    cnd_above flw_low flw_high flw_below flw_above
);

named!(other_values, outside::known_reference_writings::other_values:
    toc_4000 toc_minus_4000 toc_2001_on_row_2 cnd_minus_1_on_row_3
);

named!(labels, outside::known_reference_writings::labels:
    bytes_0 bytes_1 bytes_12 bytes_13 bytes_268 bytes_65548 digits_alone hyphens_alone
    word_of_a_heading
);

named!(label_bytes, outside::known_reference_writings::label_bytes:
    byte_10 byte_10_last byte_10_alone byte_0 byte_0_last byte_0_alone comma comma_last comma_alone
    row_within lower_case blank byte_13 below quotes next_below_a next_above_z next_below_0
    next_above_9 point underscore byte_127 byte_255 letter_of_two_bytes
);

named!(several_labels, outside::known_reference_writings::several_labels:
    twice rows_1_and_3 rows_2_and_3 rows_1_and_256 rows_255_and_256 row_256_out_of_form
    row_255_empty first_empty last_empty empty_twice parted_early parted_late one_longer
    last_byte_differs first_byte_differs
);

named!(limits_first, outside::known_reference_writings::limits_first:
    coordinate_on_a_later_row_and_form coordinate_and_form_on_one_row
    coordinate_on_a_later_row_and_range coordinate_and_repeated_on_one_row code_and_form
    code_and_range code_and_repeated ends_and_form ends_and_range ends_and_repeated
    rows_short_and_form
);

named!(one_row, outside::known_reference_writings::one_row:
    form_and_first_value form_and_last_value two_values value_and_label_twice
    last_value_and_label_twice form_twice form_and_values_twice
);

named!(two_rows, outside::known_reference_writings::two_rows:
    form_then_form form_then_range range_then_form range_then_range form_then_repeated
    repeated_then_form range_then_repeated range_on_the_first_then_repeated repeated_then_range
    repeated_then_repeated
);

named!(rooms, outside::known_reference_writings::rooms:
    places_0 places_1 heading_alone one_short exact one_more longest_one_short limits_and_places_0
    form_and_places_0 range_and_places_0 repeated_and_places_0 repeated_and_one_short
);

/// The room that is said to be enough is the length of the longest text.
#[test]
fn the_longest_text() {
    let lengths = known_reference_writings::all().into_iter();
    let longest = lengths
        .filter_map(|known| known.outcome.ok())
        .map(|text| text.len());
    assert_eq!(longest.max(), Some(cundarivo::REFERENCE_BYTES));
}

/// Each answer in numbers, with what it leaves in the buffer.
#[test]
fn answers_in_numbers() {
    let write = |rows: &[i32], ends: &[usize], places: usize| {
        let mut buffer = *b"................";
        let (codes, labels) = ([1], b"AB");
        let answer = cundarivo::write_reference_into(
            rows,
            1,
            1,
            &codes,
            labels,
            ends,
            &mut buffer[..places],
        );
        (answer.number, answer.line, answer.length, buffer)
    };
    let untouched = *b"................";
    assert_eq!(write(&[5], &[2], 16), (0, 0, 15, *b"REF,1,TOC\nAB,5\n."));
    assert_eq!(write(&[5], &[2], 15), (0, 0, 15, *b"REF,1,TOC\nAB,5\n."));
    assert_eq!(write(&[5], &[2], 14), (13, 0, 0, untouched));
    assert_eq!(write(&[2001], &[2], 0), (4, 2, 0, untouched));
    assert_eq!(write(&[4001], &[2], 16), (8, 0, 0, untouched));
    assert_eq!(write(&[5], &[1], 16), (8, 0, 0, untouched));
}
