//! A seeded source of numbers (SplitMix64): the same seed gives the same cases on every machine.
//! The environment gives another seed and larger counts: variables that begin with `CUNDARIVO_`.

use std::ffi::OsString;

pub struct Random {
    state: u64,
}

impl Random {
    pub fn new(seed: u64) -> Self {
        Random { state: seed }
    }

    pub fn number(&mut self) -> u64 {
        self.state = self.state.wrapping_add(0x9E37_79B9_7F4A_7C15);
        let mut mixed = self.state;
        mixed = (mixed ^ (mixed >> 30)).wrapping_mul(0xBF58_476D_1CE4_E5B9);
        mixed = (mixed ^ (mixed >> 27)).wrapping_mul(0x94D0_49BB_1331_11EB);
        mixed ^ (mixed >> 31)
    }

    /// A number from 0 to `bound` - 1.
    pub fn below(&mut self, bound: u64) -> u64 {
        ((u128::from(self.number()) * u128::from(bound)) >> 64) as u64
    }

    /// An index into `count` places.
    pub fn index(&mut self, count: usize) -> usize {
        self.below(count as u64) as usize
    }

    /// A number from `low` to `high`, both included.
    pub fn between(&mut self, low: i32, high: i32) -> i32 {
        let count = (i64::from(high) - i64::from(low) + 1) as u64;
        (i64::from(low) + self.below(count) as i64) as i32
    }

    /// A fraction from 0 to 1, 1 not included.
    pub fn fraction(&mut self) -> f64 {
        (self.number() >> 11) as f64 / (1u64 << 53) as f64
    }

    pub fn pick<T: Copy>(&mut self, choices: &[T]) -> T {
        choices[self.index(choices.len())]
    }

    /// True once in `count` calls, on average.
    pub fn once_in(&mut self, count: u64) -> bool {
        self.below(count) == 0
    }
}

/// The seed: CUNDARIVO_SEED of the environment, else `default`.
pub fn seed_from_environment(default: u64) -> u64 {
    number("SEED", std::env::var_os).unwrap_or(default)
}

/// A count: the larger of CUNDARIVO_`name` of the environment and `least`, so that the environment
/// raises a count and never lowers it.
pub fn count_from_environment(name: &str, least: u64) -> u64 {
    count(name, least, std::env::var_os)
}

fn count(name: &str, least: u64, variable: impl FnOnce(String) -> Option<OsString>) -> u64 {
    number(name, variable).map_or(least, |count| count.max(least))
}

/// The number in a variable whose name begins with `CUNDARIVO_`, where there is such a variable.
fn number(name: &str, variable: impl FnOnce(String) -> Option<OsString>) -> Option<u64> {
    let name = format!("CUNDARIVO_{name}");
    let value = variable(name.clone())?;
    let number = value.to_str().and_then(|text| text.parse().ok());
    Some(number.unwrap_or_else(|| panic!("{name} is a whole number, not {value:?}")))
}

#[cfg(test)]
mod tests {
    use super::*;

    /// An environment in which one variable is set.
    fn holding(value: &str) -> impl FnOnce(String) -> Option<OsString> {
        move |name| (name == "CUNDARIVO_TEXTS").then(|| value.into())
    }

    #[test]
    fn the_environment_raises_a_count_and_never_lowers_it() {
        assert_eq!(count("TEXTS", 100, |_| None), 100);
        assert_eq!(count("TEXTS", 100, holding("101")), 101);
        for lower in ["0", "1", "99", "100"] {
            assert_eq!(count("TEXTS", 100, holding(lower)), 100);
        }
        assert_eq!(count("RECORDS", 100, holding("101")), 100);
    }

    #[test]
    fn a_seed_is_any_number() {
        assert_eq!(number("TEXTS", holding("0")), Some(0));
        assert_eq!(
            number("TEXTS", holding(&u64::MAX.to_string())),
            Some(u64::MAX)
        );
        assert_eq!(number("SEED", holding("0")), None);
    }

    #[test]
    #[should_panic(expected = "CUNDARIVO_TEXTS is a whole number")]
    fn what_is_no_number_stops_the_tests() {
        count("TEXTS", 100, holding("-1"));
    }

    #[test]
    #[should_panic(expected = "CUNDARIVO_TEXTS is a whole number")]
    fn an_empty_variable_stops_the_tests() {
        count("TEXTS", 100, holding(""));
    }
}
