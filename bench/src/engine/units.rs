//! Units, and rounding with ties up.

/// Units to one.
pub const UNIT: u64 = 1_000_000_000;

/// `first * second / U`, rounded. The product stays below 2^63 wherever the rules use it: at most 4 U times 1.5 U
/// in the projection, and 10,000,000 times 271 U of a pension and its annuity.
#[inline]
pub fn product(first: u64, second: u64) -> u64 {
    (first * second + UNIT / 2) / UNIT
}

/// `dividend / divisor`, rounded: the greatest whole number not above the fraction plus one half. `divisor` is
/// positive, and both are small enough that twice their sum fits.
#[inline]
pub fn rounded(dividend: i64, divisor: i64) -> i64 {
    (2 * dividend + divisor).div_euclid(2 * divisor)
}

#[cfg(test)]
mod tests {
    use super::*;

    #[test]
    fn ties_go_up() {
        assert_eq!(rounded(1, 2), 1);
        assert_eq!(rounded(-1, 2), 0);
        assert_eq!(rounded(-3, 2), -1);
        assert_eq!(rounded(-2, 3), -1);
        assert_eq!(rounded(-1, 3), 0);
        assert_eq!(product(1, UNIT / 2), 1);
        assert_eq!(product(1, UNIT / 2 - 1), 0);
    }

    #[test]
    fn the_largest_product_fits() {
        assert_eq!(product(4 * UNIT, UNIT + UNIT / 2), 6 * UNIT);
    }
}
