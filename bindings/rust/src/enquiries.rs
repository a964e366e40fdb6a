//! The enquiries that a basis answers: single cells, which end in 2130, and values of one life, which go on after it.

use crate::ffi;
use crate::{Basis, Kind, Lifeline, Refusal};

impl Basis {
    /// The mortality improvement at an age in a year, in units; below zero where mortality worsens. The first year is F,
    /// and where B is before F it is B + 1: up to F an improvement is then the history's. A projected one is within
    /// half a unit of the exact one.
    ///
    /// ```
    /// # let basis = parvusek::Basis::open("../../samples/basis.bin")?;
    /// assert_eq!(basis.improvement(65, 2006)?, 26_000_000);
    /// # Ok::<(), Box<dyn std::error::Error>>(())
    /// ```
    pub fn improvement(&self, age: u32, year: u32) -> Result<i64, Refusal> {
        let (run, run_len, history, history_len) = self.lent();
        // SAFETY: the pointers and lengths are those of the run and the history; every number may be asked.
        let answer = unsafe { ffi::parvusek_improvement(run, run_len, history, history_len, age, year) };
        answer.refusal.unless_none().map(|()| answer.value)
    }

    /// The reduction factor since the base year, in units: one in year B.
    ///
    /// ```
    /// # let basis = parvusek::Basis::open("../../samples/basis.bin")?;
    /// assert_eq!(basis.factor(65, 2008)?, parvusek::UNIT);
    /// assert_eq!(basis.factor(65, 2007).unwrap_err().number, 7);
    /// # Ok::<(), Box<dyn std::error::Error>>(())
    /// ```
    pub fn factor(&self, age: u32, year: u32) -> Result<u64, Refusal> {
        self.cell(ffi::parvusek_factor, age, year)
    }

    /// The mortality rate, in units: base rate times factor, at most one.
    ///
    /// ```
    /// # let basis = parvusek::Basis::open("../../samples/basis.bin")?;
    /// assert_eq!(basis.rate(20, 2008)?, 300_000);
    /// # Ok::<(), Box<dyn std::error::Error>>(())
    /// ```
    pub fn rate(&self, age: u32, year: u32) -> Result<u64, Refusal> {
        self.cell(ffi::parvusek_rate, age, year)
    }

    /// Survivors of one after a number of years, in units. A refusal names the years as the deferment.
    ///
    /// ```
    /// # use parvusek::{Basis, Kind, UNIT};
    /// # let basis = Basis::open("../../samples/basis.bin")?;
    /// assert_eq!(basis.survivorship(Kind::Period, 65, 0, 2010)?, UNIT);
    /// assert!(basis.survivorship(Kind::Cohort, 65, 20, 2010)? > basis.survivorship(Kind::Period, 65, 20, 2010)?);
    /// # Ok::<(), Box<dyn std::error::Error>>(())
    /// ```
    pub fn survivorship(&self, kind: Kind, age: u32, years: u32, year: u32) -> Result<u64, Refusal> {
        let function: ffi::Value = match kind {
            Kind::Period => ffi::parvusek_period_survivorship,
            Kind::Cohort => ffi::parvusek_cohort_survivorship,
        };
        self.value_of(function, age, years, year)
    }

    /// Expectation of life in years, in units, at the deferred age in the deferred year, which may be after 2130.
    ///
    /// ```
    /// # use parvusek::{decimal, Basis, Kind};
    /// # let basis = Basis::open("../../samples/basis.bin")?;
    /// assert_eq!(decimal(basis.expectation(Kind::Period, 65, 0, 2010)?).to_string(), "19.302119086");
    /// # Ok::<(), Box<dyn std::error::Error>>(())
    /// ```
    pub fn expectation(&self, kind: Kind, age: u32, deferment: u32, year: u32) -> Result<u64, Refusal> {
        let function: ffi::Value = match kind {
            Kind::Period => ffi::parvusek_period_expectation,
            Kind::Cohort => ffi::parvusek_cohort_expectation,
        };
        self.value_of(function, age, deferment, year)
    }

    /// Value today of one a year for life, yearly in advance from the deferred age on, in units.
    ///
    /// ```
    /// # use parvusek::{decimal, Basis, Kind};
    /// # let basis = Basis::open("../../samples/basis.bin")?;
    /// assert_eq!(decimal(basis.annuity(Kind::Period, 45, 20, 2010)?).to_string(), "7.041560021");
    /// # Ok::<(), Box<dyn std::error::Error>>(())
    /// ```
    pub fn annuity(&self, kind: Kind, age: u32, deferment: u32, year: u32) -> Result<u64, Refusal> {
        let function: ffi::Value = match kind {
            Kind::Period => ffi::parvusek_period_annuity,
            Kind::Cohort => ffi::parvusek_cohort_annuity,
        };
        self.value_of(function, age, deferment, year)
    }

    /// A life from this age and year on, to be followed year by year.
    pub fn lifeline(&self, age: u32, year: u32) -> Result<Lifeline<'_>, Refusal> {
        Lifeline::start(self, age, year)
    }

    fn cell(&self, function: ffi::Cell, age: u32, year: u32) -> Result<u64, Refusal> {
        let (run, run_len, history, history_len) = self.lent();
        // SAFETY: the pointers and lengths are those of the run and the history; every number may be asked.
        let answer = unsafe { function(run, run_len, history, history_len, age, year) };
        answer.refusal.unless_none().map(|()| answer.value)
    }

    fn value_of(&self, function: ffi::Value, age: u32, deferment: u32, year: u32) -> Result<u64, Refusal> {
        let (run, run_len, history, history_len) = self.lent();
        // SAFETY: the pointers and lengths are those of the run and the history; every number may be asked.
        let answer = unsafe { function(run, run_len, history, history_len, age, deferment, year) };
        answer.refusal.unless_none().map(|()| answer.value)
    }
}
