//! Bad texts, texts at the limits and the examples and trial figures of document 01, each by a test
//! of its own.

use differential::compare_text::Text;
use differential::lent::{ENOUGH, ROOMS, Room};
use differential::named;
use outside::known_texts::{self, KnownText};
use outside::random::Random;

/// The product gives the answer that is written down, in every room that is enough.
fn holds(list: Vec<KnownText>, name: &str) {
    let known = list.into_iter().find(|known| known.name == name);
    let known = known.expect("a known text");
    let text = Text::new(&known.text);
    assert_eq!(text.outcome, known.outcome, "the outside implementation");
    let random = &mut Random::new(9);
    for room in ENOUGH {
        let number = text.compare_reading(random, (room, room));
        let owed = known.outcome.as_ref().map_or_else(|r| r.number, |_| 0);
        assert_eq!(number, owed, "{room:?}");
    }
    text.compare_wrapper();
    assert!(text.compare_labels(random) > 0);
}

named!(examples, outside::known_texts::examples:
    record tags_of_two value_05 value_2001 label_twice heading_alone
);

named!(trials, outside::known_texts::trials: toc_2000 toc_2001 row_256 row_257);

named!(lengths, outside::known_texts::lengths: empty_text bytes_65536 bytes_65537);

named!(headings, outside::known_texts::headings:
    heading_without_end
    channels_0 channels_9 channels_01 channels_above_64_bits
    tag_too_few tag_too_many tag_lower_case tag_and_byte_13
    word_lower_case heading_empty
);

named!(values, outside::known_texts::values:
    minus_0 leading_0 plus_1 blank_after_1 value_empty
    below_alone below_twice below_0 below_minus_1 below_leading_0
    plain_0 minus_1 plain_2000 plain_2001
    below_1 below_2 below_3 below_50 below_51 below_52 below_1999 below_2000 below_2001
    above_32_bits above_64_bits
);

named!(largest, outside::known_texts::largest: ends_of_every_range largest_accepted);

named!(labels, outside::known_texts::labels:
    label_0_bytes label_12_bytes label_13_bytes label_lower_case label_above_127
);

named!(lines, outside::known_texts::lines:
    byte_13 empty_line empty_line_at_the_end
    field_too_many comma_at_the_end field_too_few one_field_of_two
    row_without_end
);

named!(row_counts, outside::known_texts::row_counts:
    row_257_out_of_form row_257_out_of_range row_257_repeated row_257_empty row_257_without_end
);

named!(orders, outside::known_texts::orders:
    repeated_and_out_of_range repeated_and_out_of_form repeated_without_end
    out_of_range_then_form
    range_line_before_form_line form_line_before_range_line
    repeated_before_range_line range_line_before_repeated
    fault_before_row_257 repeated_before_row_257
    heading_before_row
);

/// Document 01: a value outside its type's range.
#[test]
fn values_just_outside_their_ranges() {
    let list = known_texts::just_outside();
    assert_eq!(list.len(), 24);
    let random = &mut Random::new(10);
    for (tag, value) in list {
        let text = Text::new(format!("REF,1,{tag}\nA,{value}\n").as_bytes());
        let number = text.compare_reading(random, (Room::Full, Room::Full));
        assert_eq!(number, 4, "{tag} {value}");
    }
}

/// The number that the product gives to document 01's text of 3 rows of 2, lent so much room.
fn number_of_the_record(rooms: (Room, Room)) -> u32 {
    let record = known_texts::examples().swap_remove(0);
    assert_eq!(record.name, "record");
    Text::new(&record.text).compare_reading(&mut Random::new(11), rooms)
}

#[test]
fn table_one_place_short() {
    assert_eq!(number_of_the_record((Room::OneFewer, Room::Exact)), 7);
}

#[test]
fn table_of_no_place() {
    assert_eq!(number_of_the_record((Room::None, Room::Exact)), 7);
}

#[test]
fn table_exact() {
    assert_eq!(number_of_the_record((Room::Exact, Room::Exact)), 0);
}

#[test]
fn table_one_place_more() {
    assert_eq!(number_of_the_record((Room::OneMore, Room::Exact)), 0);
}

#[test]
fn types_one_place_short() {
    assert_eq!(number_of_the_record((Room::Exact, Room::OneFewer)), 13);
}

#[test]
fn types_one_place_more() {
    assert_eq!(number_of_the_record((Room::Exact, Room::OneMore)), 0);
}

#[test]
fn table_before_types() {
    assert_eq!(number_of_the_record((Room::OneFewer, Room::OneFewer)), 7);
}

/// A refused text is refused by the same number when the lent room is too short as well.
#[test]
fn refusals_come_before_short_room() {
    let random = &mut Random::new(12);
    let mut refused = 0;
    for known in known_texts::all() {
        if let Err(refusal) = known.outcome {
            let text = Text::new(&known.text);
            for room in ROOMS {
                let number = text.compare_reading(random, (room, Room::None));
                assert_eq!(number, refusal.number, "{}, {room:?}", known.name);
            }
            refused += 1;
        }
    }
    assert!(refused > 50);
}

/// Every accepted text is refused by 7 in a table of one place fewer; its labels are still found.
#[test]
fn short_tables_are_refused() {
    let random = &mut Random::new(13);
    let mut accepted = 0;
    for known in known_texts::all() {
        if let Ok(reference) = known.outcome {
            let text = Text::new(&known.text);
            let number = text.compare_reading(random, (Room::OneFewer, Room::Full));
            assert_eq!(number, 7, "{}", known.name);
            assert!(text.compare_labels(random) > 0);
            assert!(!cundarivo::label(&known.text, reference.rows.len()).is_empty());
            accepted += 1;
        }
    }
    assert!(accepted > 5);
}

/// Two labels by hand, and the rows that the text does not have.
#[test]
fn labels_as_parts_of_the_text() {
    let text = b"REF,2,TOC,CND\nA,0,0\nB-12,6,0\n";
    assert_eq!(cundarivo::label(text, 1), b"A");
    assert_eq!(cundarivo::label(text, 2), b"B-12");
    let part = cundarivo::label_part(text, 2);
    assert_eq!((part.start, part.length), (20, 4));
    for row in [0, 3, 257, usize::MAX] {
        let part = cundarivo::label_part(text, row);
        assert_eq!((part.start, part.length), (0, 0), "row {row}");
    }
    assert!(cundarivo::label(b"REF,1,TOC\nA,1\nA,2\n", 1).is_empty());
}
