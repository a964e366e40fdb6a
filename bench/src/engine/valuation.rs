//! Survivorship, expectation of life and annuity, period and cohort, on checked arguments.
use super::basis::Basis;
use super::layout::LAST_AGE;
use super::refusal::Refusal;
use super::units::{UNIT, product};

#[derive(Clone, Copy, Debug, PartialEq, Eq)]
pub enum Kind {
    Period,
    Cohort,
}

impl Kind {
    /// The year whose rate is used `elapsed` years after `year`.
    #[inline]
    pub(super) fn year_of_rate(self, year: u32, elapsed: u32) -> u32 {
        match self {
            Kind::Period => year,
            Kind::Cohort => year + elapsed,
        }
    }
}

impl Basis<'_> {
    /// Those of `survivors` at `age` in `year` that are alive a year later.
    #[inline]
    pub fn survive(&self, survivors: u64, age: u32, year: u32) -> Result<u64, Refusal> {
        Ok(product(survivors, UNIT - self.rate(age, year)?))
    }

    pub fn survivorship(&self, kind: Kind, age: u32, years: u32, year: u32) -> Result<u64, Refusal> {
        let mut survivors = UNIT;
        for elapsed in 0..years {
            survivors = self.survive(survivors, age + elapsed, kind.year_of_rate(year, elapsed))?;
        }
        Ok(survivors)
    }

    pub fn expectation(&self, kind: Kind, age: u32, deferment: u32, year: u32) -> Result<u64, Refusal> {
        let (age, year) = (age + deferment, year + deferment);
        let mut survivors = UNIT;
        let mut expectation = UNIT / 2;
        for elapsed in 0..LAST_AGE - age {
            survivors = self.survive(survivors, age + elapsed, kind.year_of_rate(year, elapsed))?;
            expectation += survivors;
        }
        Ok(expectation)
    }

    pub fn annuity(&self, kind: Kind, age: u32, deferment: u32, year: u32) -> Result<u64, Refusal> {
        let mut survivors = UNIT;
        let mut discount = UNIT;
        let mut annuity = 0;
        for elapsed in 0..=LAST_AGE - age {
            if elapsed > 0 {
                let before = elapsed - 1;
                survivors = self.survive(survivors, age + before, kind.year_of_rate(year, before))?;
                discount = self.discounted(discount);
            }
            if elapsed >= deferment {
                annuity += product(discount, survivors);
            }
        }
        Ok(annuity)
    }

    /// `discount * U / (U + rate of discount)`, rounded. Even at the lowest rate a discount stays below 4 U for the 130
    /// years from 20 to 150, so that twice the product fits.
    #[inline]
    pub(super) fn discounted(&self, discount: u64) -> u64 {
        let divisor = (UNIT as i64 + self.discount_rate) as u64;
        (2 * discount * UNIT + divisor) / (2 * divisor)
    }
}
