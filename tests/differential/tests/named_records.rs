//! Bad records and envelopes, those at the limits and the examples of document 01, each by a test of
//! its own.

use differential::compare_record::{Record, Writing};
use differential::lent::{ENOUGH, ROOMS, Room};
use outside::known_records::{self, RECORD};
use outside::known_writings;
use outside::random::Random;
use outside::records::{Envelope, TypedRows};

/// Records that are read.
mod reading {
    use differential::compare_record::Record;
    use differential::lent::ENOUGH;
    use differential::named;
    use outside::known_records::KnownRecord;
    use outside::random::Random;

    /// The product gives the answer that is written down, in every room that is enough.
    fn holds(list: Vec<KnownRecord>, name: &str) {
        let known = list.into_iter().find(|known| known.name == name);
        let known = known.expect("a known record");
        let record = Record::new(&known.rows, &known.text);
        assert_eq!(record.outcome, known.outcome, "the outside implementation");
        let random = &mut Random::new(15);
        for room in ENOUGH {
            let number = record.compare(random, (room, room));
            let owed = known.outcome.as_ref().map_or_else(|r| r.number, |_| 0);
            assert_eq!(number, owed, "{room:?}");
        }
        record.compare_wrapper();
    }

    named!(examples, outside::known_records::examples:
        record budget_1 budget_0 no_channels no_channels_ended
    );

    named!(lengths, outside::known_records::lengths:
        bytes_0 bytes_65536_digits bytes_65537_digits bytes_65536_line_ends
        bytes_65537_line_ends bytes_65536_no_line_end bytes_65537_no_line_end
    );

    named!(headings, outside::known_records::headings:
        word_ref word_lower_case word_shorter word_longer word_empty word_alone
        empty_heading channels_0 channels_0_with_tags channels_1_of_2 channels_3_of_2
        channels_9 channels_02 channels_minus_2 channels_empty channels_20_digits
        tag_unknown tag_lower_case tag_empty tag_longer tag_blank byte_13 without_line_end
    );

    named!(centres, outside::known_records::centres:
        word_lower_case word_of_figures word_longer word_empty word_alone empty_line
        one_of_2 three_of_2 comma_behind number_empty number_minus_0 number_leading_0
        number_00 number_plus number_minus_alone number_blank_before number_blank_behind
        number_point number_below number_letter number_byte_0 number_20_digits
        number_minus_20_digits number_20_digits_last byte_13 without_line_end
    );

    named!(figures, outside::known_records::figures:
        word_lower_case word_of_centre word_longer empty_line field_too_few field_too_many
        radius_empty radius_minus_0 radius_leading_0 radius_20_digits radius_minus_20_digits
        bound_empty bound_minus_0 bound_leading_0 bound_20_digits without_line_end
    );

    named!(endings, outside::known_records::endings:
        moves_empty moves_minus_0 moves_minus_1 moves_02 moves_1000001 moves_in_32_bits
        moves_19_digits moves_20_digits letter_empty letter_lower_case letter_other
        letter_twice letter_blank letter_1 byte_13
    );

    named!(weights, outside::known_records::weights:
        word_lower_case word_empty word_longer second_word_of_figures empty_line
        second_empty_line field_too_few field_too_many row_0 row_257 row_minus_2 row_02
        row_minus_0 row_empty row_in_32_bits row_19_digits row_20_digits row_equal
        row_falling second_row_257 weight_0 weight_minus_1 weight_minus_0 weight_032768
        weight_empty weight_20_digits byte_13 without_line_end
    );

    named!(lines, outside::known_records::lines:
        heading_alone no_figures no_weights heading_dropped centre_dropped figures_dropped
        weight_dropped last_weight_dropped heading_exchanged centre_exchanged
        figures_exchanged weights_exchanged heading_twice centre_twice figures_twice
        weight_twice last_weight_twice
    );

    named!(line_ends, outside::known_records::line_ends:
        line_end_alone empty_line_first empty_line_behind byte_behind blank_behind
        heading_behind record_behind weight_behind_without_end weight_behind
        comma_for_a_line_end
    );

    named!(other_centres, outside::known_records::other_centres:
        tag_differs tags_exchanged channel_less channel_more centre_above centre_below
        centre_above_last centre_below_last centre_negative centre_past_its_limit
        centre_in_32_bits centre_19_digits centre_minus_19_digits centre_2_to_63
    );

    named!(other_figures, outside::known_records::other_figures:
        radius_above radius_below radius_negative radius_minus_1 radius_19_digits
        radius_minus_19_digits bound_above bound_below bound_negative bound_minus_1
        bound_19_digits budget_for_settled settled_for_budget
    );

    named!(other_weights, outside::known_records::other_weights:
        sum_below sum_above row_of_another_weight weight_in_32_bits weight_2_to_63
        weight_19_digits row_above_m row_256_above_m
    );

    named!(at_the_limits, outside::known_records::at_the_limits:
        moves_1000000 moves_0 row_256 row_256_of_255 weights_256 largest_figures
    );

    named!(outside_limits, outside::known_records::outside_limits:
        channels_0 channels_9 channels_most rows_0 rows_257 rows_most product_wraps
        rows_short no_rows coordinate_above coordinate_below types_short no_types code_0
        code_9 code_255
    );

    named!(past_the_counts, outside::known_records::past_the_counts:
        places_past_the_rows places_past_the_types
    );

    named!(orders, outside::known_records::orders:
        limits_before_empty limits_before_length limits_before_form limits_before_agreement
        length_before_form
    );

    named!(orders_of_form, outside::known_records::orders_of_form:
        upper_form_first heading_first form_behind_another_tag form_behind_another_centre
        form_before_another_weight form_behind_a_negative_radius
        no_line_end_and_another_letter no_weights_and_another_tag
    );

    named!(drawn_as_0, outside::known_records::drawn_as_0:
        drawn_as_0_and_kept drawn_as_0_and_kept_beside_another drawn_as_0_and_refused
        drawn_as_0_and_refused_for_a_row_outside
    );
}

/// Envelopes that are written.
mod writing {
    use differential::compare_record::Writing;
    use differential::named;
    use outside::known_writings::KnownWriting;
    use outside::random::Random;

    /// The product gives the answer that is written down, in buffers of the record's length and
    /// longer.
    fn holds(list: Vec<KnownWriting>, name: &str) {
        let known = list.into_iter().find(|known| known.name == name);
        let known = known.expect("a known envelope");
        let writing = Writing::new(&known.envelope, &known.places, known.m);
        assert_eq!(writing.outcome, known.outcome, "the outside implementation");
        let random = &mut Random::new(16);
        for more in [0, 1, 100] {
            let number = writing.compare(random, writing.length() + more);
            let owed = known.outcome.as_ref().map_or_else(|r| r.number, |_| 0);
            assert_eq!(number, owed, "{more} places more");
        }
        writing.compare_wrapper();
    }

    named!(examples, outside::known_writings::examples:
        record budget_1 budget_0
    );

    named!(at_the_limits, outside::known_writings::at_the_limits:
        moves_1000000 moves_0 row_256 weights_256 largest_figures
    );

    named!(past_the_counts, outside::known_writings::past_the_counts:
        weights_of_4_places weights_of_256_places places_past_the_channels
        places_past_the_rows
    );

    named!(figures_outside, outside::known_writings::figures_outside:
        channels_0 channels_9 channels_in_32_bits channels_most code_0 code_9 code_0_last
        code_9_last code_255 centre_above centre_below centre_above_last centre_below_last
        centre_least centre_most radius_above radius_most bound_above bound_most
        moves_1000001 moves_most settled_2 settled_most types_short types_none centre_short
        centre_none
    );

    named!(rows_outside, outside::known_writings::rows_outside:
        rows_0 rows_257 rows_most product_wraps rows_short no_rows coordinate_above
        coordinate_below weights_short no_weights weights_257
    );

    named!(other_figures, outside::known_writings::other_figures:
        centre_above centre_below radius_above radius_below bound_above bound_below
        ending_differs figures_of_budget_1
    );

    named!(other_weights, outside::known_writings::other_weights:
        sum_below sum_above sum_wraps rows_of_other_weights all_zero weight_past
        weight_past_of_256 weight_moved_past
    );

    named!(orders, outside::known_writings::orders:
        limits_before_sum limits_before_figures weight_list_before_weight_past
    );
}

/// The number that the product gives to document 01's record, lent so much room.
fn number_of_the_record(rooms: (Room, Room)) -> u32 {
    let record = Record::new(&known_records::rows(), RECORD.as_bytes());
    record.compare(&mut Random::new(17), rooms)
}

#[test]
fn centre_one_place_short() {
    assert_eq!(number_of_the_record((Room::OneFewer, Room::Exact)), 13);
}

#[test]
fn centre_of_no_place() {
    assert_eq!(number_of_the_record((Room::None, Room::Exact)), 13);
}

#[test]
fn weights_one_place_short() {
    assert_eq!(number_of_the_record((Room::Exact, Room::OneFewer)), 13);
}

#[test]
fn weights_of_no_place() {
    assert_eq!(number_of_the_record((Room::Exact, Room::None)), 13);
}

#[test]
fn both_exact() {
    assert_eq!(number_of_the_record((Room::Exact, Room::Exact)), 0);
}

#[test]
fn both_longer() {
    assert_eq!(number_of_the_record((Room::OneMore, Room::Full)), 0);
}

/// Every accepted record is refused by 13 in a room that is too short, and every refused one by its
/// own number.
#[test]
fn short_rooms_come_last() {
    let random = &mut Random::new(18);
    let (mut accepted, mut refused) = (0, 0);
    for known in known_records::all() {
        let record = Record::new(&known.rows, &known.text);
        for (centre, weights) in ROOMS.into_iter().zip(ROOMS.into_iter().rev()) {
            let number = record.compare(random, (centre, weights));
            let short = !ENOUGH.contains(&centre) || !ENOUGH.contains(&weights);
            match &known.outcome {
                Err(refusal) => assert_eq!(number, refusal.number, "{}", known.name),
                Ok(_) => assert_eq!(number == 13, short, "{}", known.name),
            }
        }
        match known.outcome {
            Ok(_) => accepted += 1,
            Err(_) => refused += 1,
        }
    }
    assert!(accepted > 5 && refused > 200, "{accepted}, {refused}");
}

/// Document 01's record in a buffer of every length: 4 bytes are too short, as are 89 of its 90.
#[test]
fn buffers_of_every_length() {
    let places = known_records::rows().set.places;
    let writing = Writing::new(&known_records::envelope(), &places, 3);
    let random = &mut Random::new(19);
    assert_eq!(writing.length(), RECORD.len());
    for length in 0..=RECORD.len() + 1 {
        let number = writing.compare(random, length);
        assert_eq!(number == 13, length < RECORD.len(), "{length}");
        assert!(matches!(number, 0 | 13), "{length}");
    }
}

/// Every refused envelope is refused by its own number in a buffer of no place.
#[test]
fn short_buffers_come_last() {
    let random = &mut Random::new(20);
    let mut refused = 0;
    for known in known_writings::all() {
        let writing = Writing::new(&known.envelope, &known.places, known.m);
        let number = writing.compare(random, 0);
        match known.outcome {
            Ok(_) => assert_eq!(number, 13, "{}", known.name),
            Err(refusal) => {
                assert_eq!(number, refusal.number, "{}", known.name);
                refused += 1;
            }
        }
    }
    assert!(refused > 50, "{refused}");
}

/// The calls of document 01's record, in numbers.
#[test]
fn answers_in_numbers() {
    let rows = [0, 0, 6, 0, 0, 8];
    let read = |text: &str| {
        let (mut centre, mut weights) = ([9; 3], [9; 4]);
        let text = text.as_bytes();
        let answer =
            cundarivo::read_record_into(&rows, 3, 2, &[1, 4], text, &mut centre, &mut weights);
        let figures = (answer.scaled_squared_radius, answer.scaled_lower_bound);
        let ending = (answer.settled, answer.moves);
        (
            (answer.number, answer.line),
            figures,
            ending,
            centre,
            weights,
        )
    };
    let figures = (107_374_182_400, 107_374_182_400);
    let (centre, weights) = ([196_608, 262_144, 9], [0, 32_768, 32_768, 9]);
    assert_eq!(read(RECORD), ((0, 0), figures, (1, 2), centre, weights));
    let refused = |number, line| ((number, line), (0, 0), (0, 0), [9; 3], [9; 4]);
    assert_eq!(read(""), refused(1, 0));
    assert_eq!(read("ENV,0"), refused(11, 1));
    assert_eq!(read(&RECORD.replace("W,3", "W,2")), refused(11, 5));
    assert_eq!(read(&RECORD.replace("S", "B")), refused(12, 0));
}

/// The record that is written of what was read, and the envelope that is read of what was written.
#[test]
fn both_round_trips() {
    let rows = [0, 0, 6, 0, 0, 8];
    let read = |text: &[u8]| cundarivo::read_record(&rows, 3, 2, &[1, 4], text);
    let write = |envelope: &cundarivo::Envelope| cundarivo::write_record(envelope, &rows, 3);
    let mut texts = 0;
    for text in [
        known_records::RECORD_BUDGET_0,
        known_records::RECORD_BUDGET_1,
        RECORD,
    ] {
        let envelope = read(text.as_bytes()).expect("a known record");
        assert_eq!(write(&envelope), Ok(text.into()));
        texts += 1;
    }
    for budget in [0, 1, 2, 10_000] {
        let envelope = cundarivo::draw(&rows, 3, 2, budget)
            .unwrap()
            .envelope(&[1, 4]);
        let text = write(&envelope).expect("a drawn envelope");
        assert_eq!(read(&text), Ok(envelope));
        texts += 1;
    }
    assert_eq!(texts, 7);
}

/// Rows and types outside their limits are refused by 8, whatever the text is.
#[test]
fn limits_come_first() {
    let list = known_records::outside_limits();
    assert!(list.len() > 10);
    for known in list {
        for text in ["", "\n", "ENV,0", RECORD, known_records::RECORD_BUDGET_1] {
            let record = Record::new(&known.rows, text.as_bytes());
            let refusal = record.outcome.as_ref().expect_err("outside the limits");
            assert_eq!((refusal.number, refusal.line), (8, 0), "{}", known.name);
            record.compare(&mut Random::new(21), (Room::Full, Room::Full));
        }
    }
}

/// Places past the counts change no answer, whatever stands there.
#[test]
fn places_past_the_counts_do_not_count() {
    let random = &mut Random::new(22);
    let mut accepted = 0;
    for known in known_records::all() {
        let TypedRows { set, types } = &known.rows;
        if types.len() != set.n || Some(set.places.len()) != set.m.checked_mul(set.n) {
            continue;
        }
        let mut longer = known.rows.clone();
        longer.set.places.extend([i32::MIN, 4_001]);
        longer.types.extend([0, 9, 255]);
        let record = Record::new(&longer, &known.text);
        assert_eq!(record.outcome, known.outcome, "{}", known.name);
        record.compare(random, (Room::Full, Room::Full));
        accepted += u32::from(record.outcome.is_ok());
    }
    assert!(accepted > 5, "{accepted}");
}

/// A weight of 1 in each place past m turns an envelope back, and a 0 in each does not.
#[test]
fn every_place_past_the_rows() {
    let places = known_records::rows().set.places;
    let random = &mut Random::new(23);
    for place in 3..256 {
        let Envelope {
            figures,
            mut weights,
        } = known_records::envelope();
        weights.resize(place + 1, 0);
        for (weight, number) in [(0, 0), (1, 12), (u32::MAX, 12)] {
            weights[place] = weight;
            let (figures, weights) = (figures.clone(), weights.clone());
            let writing = Writing::new(&Envelope { figures, weights }, &places, 3);
            let given = writing.compare(random, RECORD.len());
            assert_eq!(given, number, "{weight} at {place}");
        }
    }
}
