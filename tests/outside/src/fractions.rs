//! Exact fractions, and the binary64 number that equals one, its bits put together from whole
//! numbers: no arithmetic of binary64 is used.

/// The bits of a mantissa behind its leading one.
const MANTISSA_BITS: u32 = 52;
/// What is added to an exponent in the bits.
const EXPONENT_BIAS: i64 = 1_023;
const SIGN: u64 = 1 << 63;

/// A fraction of whole numbers. Equal ones can have other terms, so that they are not compared by
/// these.
#[derive(Clone, Copy, Debug)]
pub struct Fraction {
    pub numerator: i128,
    /// Above 0.
    pub denominator: i128,
}

impl Fraction {
    /// The bits of the binary64 number that equals the fraction, zero being positive, or nothing
    /// where none does. With terms of 128 bits its exponent lies from -127 to 127, so that the
    /// number is neither too large nor subnormal.
    pub fn binary64(self) -> Option<u64> {
        assert!(self.denominator > 0, "a denominator above 0");
        let sign = if self.numerator < 0 { SIGN } else { 0 };
        let (magnitude, denominator) = self.lowest_terms();
        if magnitude == 0 {
            return Some(0);
        }
        // An odd number times a power of 2, which the denominator takes part in.
        let twos = magnitude.trailing_zeros();
        let odd = magnitude >> twos;
        let length = u128::BITS - odd.leading_zeros();
        if !denominator.is_power_of_two() || length > MANTISSA_BITS + 1 {
            return None;
        }
        let power = i64::from(twos) - i64::from(denominator.trailing_zeros());
        let exponent = power + i64::from(length) - 1;
        let mantissa = (odd << (MANTISSA_BITS + 1 - length)) as u64 - (1 << MANTISSA_BITS);
        let biased = u64::try_from(exponent + EXPONENT_BIAS).expect("an exponent of -127 or more");
        Some(sign | biased << MANTISSA_BITS | mantissa)
    }

    /// The magnitude of the numerator and the denominator, both over their largest common divisor.
    fn lowest_terms(self) -> (u128, u128) {
        let (numerator, denominator) = (
            self.numerator.unsigned_abs(),
            self.denominator.unsigned_abs(),
        );
        let (mut divisor, mut rest) = (denominator, numerator);
        while rest > 0 {
            (divisor, rest) = (rest, divisor % rest);
        }
        (numerator / divisor, denominator / divisor)
    }
}
