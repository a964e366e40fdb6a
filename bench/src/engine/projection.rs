//! Weight and component, improvement (actual or projected), reduction factor and mortality rate.
use super::basis::Basis;
use super::layout::*;
use super::refusal::Refusal;
use super::units::{UNIT, product};

/// One component's terms: rates in units, T in years, P in hundredths of a per cent.
#[derive(Clone, Copy, Debug)]
pub struct Component {
    pub initial_rate: i64,
    pub long_term_rate: i64,
    pub convergence_period: i64,
    pub proportion_remaining: i64,
}

/// Hundredths of a per cent to one.
const WHOLE: i64 = 10_000;

/// An exact value: its whole part and, above it, `remainder / divisor` of a unit, which is not below 0 and below 1.
struct Exact {
    whole: i64,
    remainder: i64,
    divisor: i64,
}

impl Component {
    /// This component and another, `years` after the foundation year: their exact sum, rounded once. That is the floor
    /// of the sum plus one half, and the half is put to this one.
    #[inline]
    pub fn rounded_sum(&self, other: &Component, years: i64) -> i64 {
        if years >= self.convergence_period && years >= other.convergence_period {
            return self.long_term_rate + other.long_term_rate;
        }
        let (first, second) = (self.after(years, 1), other.after(years, 0));
        // whether the second fraction fills what the first leaves of a unit; either side stays below 1.6e18
        let full = second.remainder * first.divisor >= (first.divisor - first.remainder) * second.divisor;
        first.whole + second.whole + i64::from(full)
    }

    /// The component `years` after the foundation year, plus so many halves of a unit, none or one.
    #[inline]
    fn after(&self, years: i64, halves: i64) -> Exact {
        let period = self.convergence_period;
        if years >= period {
            return Exact { whole: self.long_term_rate, remainder: halves, divisor: 2 };
        }
        let left = period - years;
        let weight = left * left * (WHOLE * period + (8 * self.proportion_remaining - 2 * WHOLE) * years);
        let divisor = WHOLE * period * period * period;
        let dividend = (self.initial_rate - self.long_term_rate) * weight + halves * (divisor / 2);
        // A weight is above -1 and below 2, and the rates differ by 0.4 U at most: raised by U the value is above zero,
        // where a division takes the floor. The dividend stays below 2.3e18.
        let raised = (dividend + UNIT as i64 * divisor) as u64;
        let (quotient, remainder) = (raised / divisor as u64, raised % divisor as u64);
        Exact { whole: self.long_term_rate + quotient as i64 - UNIT as i64, remainder: remainder as i64, divisor }
    }
}

/// The factor a year later, if it is not above 4 U.
#[inline]
pub(super) fn improved(factor: u64, improvement: i64) -> Option<u64> {
    let factor = product(factor, (UNIT as i64 - improvement) as u64);
    (factor <= 4 * UNIT).then_some(factor)
}

/// A base rate after its reduction.
#[inline]
pub(super) fn reduced(base_rate: u64, factor: u64) -> u64 {
    product(base_rate, factor).min(UNIT)
}

impl Basis<'_> {
    #[inline]
    pub(super) fn base_rate(&self, age: u32) -> u64 {
        i32::from_le_bytes(self.base_rates[(age - FIRST_AGE) as usize]) as u64
    }

    #[inline]
    pub fn age_component(&self, age: u32) -> Component {
        self.by_age.component((age - FIRST_AGE) as usize)
    }

    #[inline]
    pub fn birth_year_component(&self, birth_year: u32) -> Component {
        self.by_birth_year.component((birth_year - FIRST_BIRTH_YEAR) as usize)
    }

    /// The first year that has an improvement: where there is a history, its first.
    pub fn first_improvement_year(&self) -> u32 {
        if self.base_year < self.foundation_year { self.base_year + 1 } else { self.foundation_year }
    }

    /// The improvement at an age of 20 to 150 in a year from the first that has one to 2130, or 9.
    pub fn improvement(&self, age: u32, year: u32) -> Result<i64, Refusal> {
        if self.base_year < year && year <= self.foundation_year {
            return Ok(self.actual_improvement(age, year));
        }
        self.projected_improvement(&self.age_component(age), age, year)
    }

    /// The history's, as it stands there: no addition, and its limits are those of 9.
    #[inline]
    pub(super) fn actual_improvement(&self, age: u32, year: u32) -> i64 {
        self.history.improvement(age, year - self.base_year - 1)
    }

    #[inline]
    fn projected_improvement(&self, age_component: &Component, age: u32, year: u32) -> Result<i64, Refusal> {
        let years = i64::from(year - self.foundation_year);
        let addition = if years > 0 { self.constant_addition } else { 0 };
        let birth_year_component = self.birth_year_component(year - age);
        let improvement = age_component.rounded_sum(&birth_year_component, years) + addition;
        if IMPROVEMENTS.contains(&improvement) { Ok(improvement) } else { Err(Refusal::improvement(age, year)) }
    }

    /// The improvement in a year after 2130, when every convergence is over: the long-term rates and the addition. The
    /// limits of the three sum to those of 9.
    #[inline]
    pub(super) fn later_improvement(&self, age_component: &Component, age: u32, year: u32) -> i64 {
        let by_birth_year = self.birth_year_component(year - age).long_term_rate;
        age_component.long_term_rate + by_birth_year + self.constant_addition
    }

    /// The factor at an age of 20 to 150 in a year from the base year on, or the first 9 or 10 on the way to it. A year
    /// after 2130 is one whose birth year is not after 2110.
    pub fn factor(&self, age: u32, year: u32) -> Result<u64, Refusal> {
        let end = year + 1;
        let mut factor = UNIT;
        for year in self.base_year + 1..end.min(self.foundation_year + 1) {
            factor = improved(factor, self.actual_improvement(age, year)).ok_or(Refusal::factor(age, year))?;
        }
        let age_component = self.age_component(age);
        for year in self.base_year.max(self.foundation_year) + 1..end.min(LAST_YEAR + 1) {
            let improvement = self.projected_improvement(&age_component, age, year)?;
            factor = improved(factor, improvement).ok_or(Refusal::factor(age, year))?;
        }
        for year in LAST_YEAR + 1..end {
            let improvement = self.later_improvement(&age_component, age, year);
            factor = improved(factor, improvement).ok_or(Refusal::factor(age, year))?;
        }
        Ok(factor)
    }

    pub fn rate(&self, age: u32, year: u32) -> Result<u64, Refusal> {
        Ok(reduced(self.base_rate(age), self.factor(age, year)?))
    }
}
