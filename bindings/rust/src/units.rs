//! Units and their decimal notation.

use std::fmt;

/// Units to one.
pub const UNIT: u64 = 1_000_000_000;

/// Units with nine decimals, exactly.
///
/// ```
/// assert_eq!(parvusek::decimal(2_210_000_000_u64).to_string(), "2.210000000");
/// assert_eq!(parvusek::decimal(-1_i64).to_string(), "-0.000000001");
/// ```
pub fn decimal(units: impl Into<i128>) -> Decimal {
    Decimal(units.into())
}

/// What [`decimal`] hands back, to be printed.
#[derive(Clone, Copy, Debug, PartialEq, Eq, PartialOrd, Ord, Hash)]
pub struct Decimal(i128);

impl fmt::Display for Decimal {
    fn fmt(&self, f: &mut fmt::Formatter<'_>) -> fmt::Result {
        let (units, one) = (self.0.unsigned_abs(), u128::from(UNIT));
        // `pad_integral` puts the sign and keeps a width that is asked for, so that columns can be aligned.
        f.pad_integral(self.0 >= 0, "", &format!("{}.{:09}", units / one, units % one))
    }
}
