//! Distances from a centre in whole numbers: nothing that is said of a reading or a row rests on a rounded
//! number.

use cundarivo::TOTAL;

/// D·value - X of each channel.
pub fn deviations(values: &[i32], centre: &[i64]) -> impl Iterator<Item = i128> {
    let places = values.iter().zip(centre);
    places.map(|(&value, &place)| i128::from(TOTAL) * i128::from(value) - i128::from(place))
}

/// s, the sum of their squares.
pub fn scaled_squared_distance(values: &[i32], centre: &[i64]) -> i128 {
    deviations(values, centre).map(|place| place * place).sum()
}

/// The first channel with the largest square, counted from 0, and its D·value - X.
pub fn farthest_channel(values: &[i32], centre: &[i64]) -> (usize, i128) {
    let mut farthest = (0, 0);
    for (channel, place) in deviations(values, centre).enumerate() {
        if place * place > farthest.1 * farthest.1 {
            farthest = (channel, place);
        }
    }
    farthest
}

/// The smallest whole number whose square is at least this.
pub fn root_above(square: u128) -> u128 {
    let root = square.isqrt();
    if root * root == square {
        root
    } else {
        root + 1
    }
}

/// The root of s/M in tenths of a percent, not rounded up: at most 1000 where s is at most M.
pub fn share_below(distance: u64, radius: u64) -> u128 {
    (1_000_000 * u128::from(distance) / u128::from(radius)).isqrt()
}

/// The root of s/M in tenths of a percent, not rounded down: above 1000 where s is above M.
pub fn share_above(distance: u64, radius: u64) -> u128 {
    root_above((1_000_000 * u128::from(distance)).div_ceil(u128::from(radius)))
}

/// The root of M over D in tenths of a step, not rounded down.
pub fn radius_tenths(scaled_squared_radius: u64) -> u128 {
    root_above(100 * u128::from(scaled_squared_radius)).div_ceil(u128::from(TOTAL))
}

/// How much of the radius lies above the root of L over D, in millionths and not rounded down: no ball
/// round the rows has a radius that is smaller by more than that.
pub fn gap_millionths(scaled_squared_radius: u64, scaled_lower_bound: u64) -> u128 {
    let share = 1_000_000_000_000 * u128::from(scaled_lower_bound)
        / u128::from(scaled_squared_radius.max(1));
    match scaled_squared_radius {
        0 => 0,
        _ => 1_000_000_u128.saturating_sub(share.isqrt()),
    }
}

/// The least and the largest value of a channel within the ball, in tenths of a step, rounded outwards.
pub fn reach_tenths(place: i64, scaled_squared_radius: u64) -> (i128, i128) {
    let total = i128::from(TOTAL);
    let root = root_above(100 * u128::from(scaled_squared_radius)) as i128;
    let low = (10 * i128::from(place) - root).div_euclid(total);
    let high = -(-10 * i128::from(place) - root).div_euclid(total);
    (low, high)
}

#[cfg(test)]
mod tests {
    use super::*;

    const LARGEST: u64 = 2_199_023_255_552_000_000;

    #[test]
    fn roots_are_the_nearest_whole_numbers_above() {
        for square in 0..2_000_u128 {
            let root = root_above(square);
            assert!(root * root >= square);
            assert!(root == 0 || (root - 1) * (root - 1) < square);
        }
        let root = 1_000_000_u128 * u128::from(u32::MAX);
        assert_eq!(root_above(root * root), root);
        assert_eq!(root_above(root * root - 1), root);
        assert_eq!(root_above(root * root + 1), root + 1);
    }

    #[test]
    fn no_quiet_share_is_above_100_percent_and_every_alarm_is() {
        for radius in [1, 2, 3, 1_073_741_824, 107_374_182_400, LARGEST - 1] {
            assert_eq!(share_below(0, radius), 0);
            assert_eq!(share_below(radius, radius), 1_000);
            assert!(share_above(radius + 1, radius) > 1_000, "{radius}");
            assert!(share_below(radius - 1, radius) < 1_000);
        }
        assert_eq!(share_above(LARGEST, LARGEST - 1), 1_001);
        assert_eq!(share_above(4 * 25, 25), 2_000);
        assert_eq!(share_above(4 * 25 + 1, 25), 2_010);
        assert_eq!(share_below(9, 25), 600);
        assert_eq!(share_below(1, 9), 333);
        assert_eq!(share_above(16, 9), 1_334);
        assert_eq!(share_above(LARGEST, 1), 1_482_910_400_379);
    }

    #[test]
    fn the_radius_is_not_rounded_down() {
        let square = u64::from(TOTAL).pow(2);
        assert_eq!(radius_tenths(0), 0);
        assert_eq!(radius_tenths(1), 1);
        assert_eq!(radius_tenths(25 * square), 50);
        assert_eq!(radius_tenths(25 * square + 1), 51);
    }

    #[test]
    fn a_gap_is_a_share_of_the_radius() {
        assert_eq!(gap_millionths(0, 0), 0);
        assert_eq!(gap_millionths(100, 100), 0);
        assert_eq!(gap_millionths(100, 25), 500_000);
        assert_eq!(gap_millionths(100, 0), 1_000_000);
        assert_eq!(gap_millionths(LARGEST, LARGEST - 1), 1);
    }

    #[test]
    fn the_reach_is_rounded_outwards() {
        let square = u64::from(TOTAL).pow(2);
        assert_eq!(reach_tenths(3 * 65_536, 25 * square), (-20, 80));
        assert_eq!(reach_tenths(3 * 65_536, 25 * square + 1), (-21, 81));
        assert_eq!(reach_tenths(-3 * 65_536, 25 * square), (-80, 20));
        assert_eq!(reach_tenths(1, 0), (0, 1));
        assert_eq!(reach_tenths(-1, 0), (-1, 0));
        assert_eq!(reach_tenths(7 * 65_536, 0), (70, 70));
    }

    #[test]
    fn the_farthest_channel_is_the_first_of_equals() {
        let centre = [0, 65_536, -65_536];
        assert_eq!(farthest_channel(&[0, 1, -1], &centre), (0, 0));
        assert_eq!(farthest_channel(&[-1, 2, 0], &centre), (0, -65_536));
        assert_eq!(farthest_channel(&[1, 3, -4], &centre), (2, -3 * 65_536));
        assert_eq!(
            scaled_squared_distance(&[1, 3, -4], &centre),
            14 * 65_536 * 65_536
        );
    }
}
