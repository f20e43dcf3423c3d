//! Bad input, input at the limits, the starred trial figures of document 01 and drawings directed
//! at its rules of the move, each by a test of its own.

use differential::compare::{self, Lent, Room};
use differential::named;
use outside::cases::{Answer, Case};
use outside::known::{self, Known};
use outside::random::Random;
use outside::rules::BUFFER_TOO_SHORT;

/// The product gives this answer to the case in each of the rooms.
fn answers(random: &mut Random, known: &Known, rooms: &[Room], answer: &Answer) {
    for &room in rooms {
        let lent = Lent::new(random, &known.case, room);
        let given = compare::compare(&known.case, lent);
        assert_eq!(&given, answer, "{}, {room:?}", known.name);
    }
}

/// The product gives the answer that is written down.
fn holds(list: Vec<Known>, name: &str) {
    let known = list.into_iter().find(|known| known.name == name);
    let known = known.expect("a known case");
    let rooms = [Room::Exact, Room::Longer];
    answers(&mut Random::new(3), &known, &rooms, &known.answer);
    compare::compare_owned(&known.case);
}

named!(bad_input, outside::known::bad_input:
    draw_channels_0 check_channels_0
    draw_channels_9 check_channels_9
    draw_rows_0 check_rows_0
    draw_rows_257 check_rows_257
    draw_coordinate_above check_coordinate_above
    draw_coordinate_below check_coordinate_below
    draw_places_short check_places_short
    draw_product_wraps check_product_wraps
    budget_above limits_before_budget
    list_short list_long
    sum_below sum_above sum_wraps limits_before_sum
);

named!(at_the_limits, outside::known::at_the_limits:
    largest_distance
    largest_counts
    coordinate_past_the_rows
);

named!(trials, outside::known::trials:
    rows_0_10
    rows_0_1
    one_row_budget_0
    rows_5_5
    record
    record_budget_1
    one_more_is_moved
    held_to_the_weight
);

named!(directed, outside::known::directed:
    far_tie_to_the_lowest
    near_row_has_weight
    before_a_half
    half_goes_down
    before_above_a_half
    above_a_half_goes_up
);

/// Refused input is refused by the same number when the lent room is too short as well.
#[test]
fn refusals_come_before_short_room() {
    let mut random = Random::new(4);
    let rooms = [Room::CentreShort, Room::WeightsShort];
    for known in known::bad_input() {
        answers(&mut random, &known, &rooms, &known.answer);
    }
}

/// A check is lent no room for weights.
#[test]
fn short_room_is_refused() {
    let mut random = Random::new(5);
    let rooms = [Room::CentreShort, Room::WeightsShort];
    for known in known::trials() {
        let count = if matches!(known.case, Case::Draw(..)) {
            2
        } else {
            1
        };
        answers(
            &mut random,
            &known,
            &rooms[..count],
            &BUFFER_TOO_SHORT.into(),
        );
    }
}
