//! The sizes and offsets of the structs that cross the boundary, in bytes. The C header's are compared
//! with the same numbers in bindings/c/layout.c.

use cundarivo::{
    AlertSetting, CheckAnswer, EnvelopeAnswer, FiguresGiven, LabelAnswer, MarkAnswer,
    MeasuredAnswer, PanelAnswer, ReferenceAnswer, VerdictAnswer, WrittenAnswer,
};
use std::mem::offset_of;

macro_rules! assert_layout {
    ($type:ident, $size:literal, $($member:ident $offset:literal),+) => {
        assert_eq!(size_of::<$type>(), $size, "size of {}", stringify!($type));
        $(assert_eq!(
            offset_of!($type, $member),
            $offset,
            "offset of {} in {}",
            stringify!($member),
            stringify!($type)
        );)+
    };
}

#[test]
fn structs_have_the_layout_of_the_header() {
    assert_layout!(ReferenceAnswer, 24, number 0, line 4, m 8, n 16);
    assert_layout!(LabelAnswer, 16, start 0, length 8);
    assert_layout!(EnvelopeAnswer, 32, number 0, line 4, settled 8, moves 12, scaled_squared_radius 16, scaled_lower_bound 24);
    assert_layout!(CheckAnswer, 32, number 0, line 4, settled 8, scaled_squared_radius 16, scaled_lower_bound 24);
    assert_layout!(FiguresGiven, 32, n 0, scaled_squared_radius 8, scaled_lower_bound 16, settled 24, moves 28);
    assert_layout!(VerdictAnswer, 24, number 0, line 4, verdict 8, excess 16);
    assert_layout!(MeasuredAnswer, 32, number 0, line 4, verdict 8, excess 16, scaled_squared_distance 24);
    assert_layout!(WrittenAnswer, 16, number 0, line 4, length 8);
    assert_layout!(MarkAnswer, 40, number 0, line 4, mark 8, horizontal 16, vertical 24, radius 32);
    assert_layout!(PanelAnswer, 8, number 0, line 4);
}

/// The header has no struct of a setting: settings are lent as a list of numbers.
#[test]
fn a_setting_is_two_numbers() {
    assert_layout!(AlertSetting, 8, k 0, c 4);
    assert_eq!(align_of::<AlertSetting>(), align_of::<u32>());
    let settings: Vec<AlertSetting> = (0..30).map(|k| AlertSetting { k, c: 100 + k }).collect();
    for count in [0, 1, 2, 20, 21, 30] {
        let numbers = AlertSetting::numbers(&settings[..count]);
        assert_eq!(numbers.as_ptr(), settings.as_ptr().cast());
        assert_eq!(numbers.len(), 2 * count);
        let pairs: Vec<AlertSetting> = numbers
            .chunks_exact(2)
            .map(|pair| AlertSetting {
                k: pair[0],
                c: pair[1],
            })
            .collect();
        assert_eq!(pairs, settings[..count]);
    }
}
