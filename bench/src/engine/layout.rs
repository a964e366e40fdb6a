//! What all data runs and histories have in common: ages and years, blocks, the fields before the tables, and limits.
//! Where the tables of a run stand depends on its form.
use std::ops::RangeInclusive;

pub const FIRST_AGE: u32 = 20;
pub const LAST_AGE: u32 = 150;
pub const AGES: usize = 131;

pub const FIRST_YEAR: u32 = 1992;
pub const LAST_FOUNDATION_YEAR: u32 = 2080;
/// The last year that may be asked about. Cohorts go on, to age 149 in the last year of a rate.
pub const LAST_YEAR: u32 = 2130;
pub const LAST_RATE_YEAR: u32 = 2259;

pub const FIRST_BIRTH_YEAR: u32 = 1842;
pub const LAST_BIRTH_YEAR: u32 = 2110;
pub const BIRTH_YEARS: usize = 269;

pub const BLOCK_LENGTH: usize = 512;
pub const BLOCK_DATA: usize = 506;

/// A year of a history file is two blocks, and each has the improvements of so many ages, in their order.
pub const HISTORY_PARTS: [usize; 2] = [66, 65];
pub const HISTORY_YEAR: usize = HISTORY_PARTS.len() * BLOCK_LENGTH;

/// The fields before the tables, which stand alike in every data run.
pub const FOUNDATION_YEAR: usize = 4;
pub const BASE_YEAR: usize = 6;
pub const CONSTANT_ADDITION: usize = 8;
pub const DISCOUNT_RATE: usize = 12;
pub const ZERO_BYTES: usize = 16;
pub const FIRST_TABLE: usize = 30;

pub const ADDITIONS: RangeInclusive<i32> = -100_000_000..=100_000_000;
pub const DISCOUNT_RATES: RangeInclusive<i32> = -10_000_000..=200_000_000;
pub const MORTALITY_RATES: RangeInclusive<i32> = 0..=1_000_000_000;
pub const IMPROVEMENT_RATES: RangeInclusive<i32> = -200_000_000..=200_000_000;
pub const ACTUAL_IMPROVEMENTS: RangeInclusive<i32> = -500_000_000..=500_000_000;
pub const PERIODS: RangeInclusive<u8> = 1..=50;
/// In hundredths of a per cent, and how many of them a per cent has.
pub const PROPORTIONS: RangeInclusive<u16> = 0..=15_000;
pub const HUNDREDTHS: u16 = 100;

/// Every improvement that an answer needs lies in this.
pub const IMPROVEMENTS: RangeInclusive<i64> = -500_000_000..=500_000_000;

/// The little-endian numbers of a run. Callers name offsets that lie in it.
#[inline]
pub fn signed(run: &[u8], offset: usize) -> i32 {
    i32::from_le_bytes(run[offset..offset + 4].try_into().expect("four bytes"))
}

#[inline]
pub fn short(run: &[u8], offset: usize) -> u32 {
    u32::from(u16::from_le_bytes(run[offset..offset + 2].try_into().expect("two bytes")))
}

#[cfg(test)]
mod tests {
    use super::*;

    #[test]
    fn every_age_and_birth_year_has_an_entry() {
        assert_eq!((LAST_AGE - FIRST_AGE + 1) as usize, AGES);
        assert_eq!((LAST_BIRTH_YEAR - FIRST_BIRTH_YEAR + 1) as usize, BIRTH_YEARS);
    }

    /// One who is 20 in 2130 is 149 in 2259, and born in the last birth year. The rate at 150 is not used.
    #[test]
    fn the_last_rate_is_that_of_the_last_birth_year() {
        assert_eq!((LAST_YEAR - FIRST_AGE, LAST_RATE_YEAR - (LAST_AGE - 1)), (LAST_BIRTH_YEAR, LAST_BIRTH_YEAR));
    }

    #[test]
    fn a_year_of_a_history_has_every_age_once() {
        let [younger, older] = HISTORY_PARTS;
        assert_eq!(((85 - FIRST_AGE + 1) as usize, (LAST_AGE - 86 + 1) as usize), (younger, older));
        assert_eq!((younger + older, HISTORY_YEAR), (AGES, 1024));
    }
}
