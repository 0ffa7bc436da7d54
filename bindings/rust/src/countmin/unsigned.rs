//! Halving and decay.

use super::{CountMinSketch, UnsignedCountMinValue};
use crate::error::{must, Error};
use crate::sys;

/// The largest power of two that a denominator of the library has.
const MAX_SHIFT: u32 = 63;

impl<T: UnsignedCountMinValue> CountMinSketch<T> {
    /// Halves each cell and the total, rounded down.
    pub fn halve(&mut self) {
        must(self.handle.halve())
    }

    /// Multiplies each cell and the total by a number, rounded down. `decay(0.99)` uses the value of the
    /// `f64`, which is below 99/100, and takes 100 to 98: see [`decay_by`](Self::decay_by).
    ///
    /// # Panics
    ///
    /// Panics if the number is not above 0 and at most 1. The sketch stays as it was.
    pub fn decay(&mut self, decay: f64) {
        must(self.try_decay(decay))
    }

    /// Multiplies each cell and the total by a number, rounded down, as [`decay`](Self::decay) does.
    ///
    /// # Errors
    ///
    /// Returns an error if the number is not above 0 and at most 1.
    pub fn try_decay(&mut self, decay: f64) -> Result<(), Error> {
        let is_fraction = decay > 0.0 && decay <= 1.0;
        if !is_fraction {
            return Err(Error::of_argument(sys::DS_BAD_FRACTION));
        }
        let (numerator, mut shift) = fraction_of(decay);
        // Rounding down by parts of the shift is rounding down by all of it.
        let first = shift.min(MAX_SHIFT);
        self.handle.decay(numerator, 1 << first)?;
        shift -= first;
        while shift > 0 {
            let next = shift.min(MAX_SHIFT);
            self.handle.decay(1, 1 << next)?;
            shift -= next;
        }
        Ok(())
    }

    /// Multiplies each cell and the total by a fraction, rounded down. `decay_by(99, 100)` takes 100 to 99.
    ///
    /// # Errors
    ///
    /// Returns an error if the fraction is not above 0 and at most 1.
    pub fn decay_by(&mut self, numerator: u64, denominator: u64) -> Result<(), Error> {
        self.handle.decay(numerator, denominator)
    }
}

/// Returns a number above 0 and at most 1 as an odd numerator over a power of two.
fn fraction_of(number: f64) -> (u64, u32) {
    const FRACTION_BITS: u32 = f64::MANTISSA_DIGITS - 1;
    let bits = number.to_bits();
    let (exponent, fraction) = ((bits >> FRACTION_BITS) as u32, bits & ((1 << FRACTION_BITS) - 1));
    let (numerator, shift) = match exponent {
        0 => (fraction, 1074),
        _ => (fraction | 1 << FRACTION_BITS, 1075 - exponent),
    };
    let zeros = numerator.trailing_zeros().min(shift);
    (numerator >> zeros, shift - zeros)
}

#[cfg(test)]
mod tests {
    use super::fraction_of;

    #[test]
    fn numbers_are_fractions() {
        assert_eq!(fraction_of(1.0), (1, 0));
        assert_eq!(fraction_of(0.5), (1, 1));
        assert_eq!(fraction_of(0.75), (3, 2));
        assert_eq!(fraction_of(f64::from_bits(1)), (1, 1074));
        assert_eq!(fraction_of(f64::MIN_POSITIVE), (1, 1022));
        for number in [0.99, 0.1, 1e-5, 1e-300, 1.0 - f64::EPSILON / 2.0] {
            let (numerator, shift) = fraction_of(number);
            let half = shift as i32 / 2;
            assert_eq!(numerator as f64 * 0.5f64.powi(half) * 0.5f64.powi(shift as i32 - half), number);
        }
    }
}
