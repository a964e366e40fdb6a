//! A data run of either form that has passed its checks: 1, then every 4, then 5 by offset.
use super::form::{Form, Table, Table::*};
use super::layout::*;
use super::refusal::Refusal;
use super::table::{first_bad_byte, first_bad_number, first_bad_short, first_non_zero};
use std::ops::{Range, RangeInclusive};

#[derive(Clone, Copy)]
pub struct Run<'lent> {
    pub form: Form,
    pub bytes: &'lent [u8],
}

/// The stretch of a lent run that is this table, of a refused one a stretch of length 0.
pub fn table(run: &[u8], table: Table) -> &[u8] {
    Run::accept(run).map_or(&[], |run| run.stretch(table))
}

impl<'lent> Run<'lent> {
    /// Checks a lent run afresh, by itself: whether its years need a history is not asked.
    pub fn accept(bytes: &'lent [u8]) -> Result<Self, Refusal> {
        let run = Run { form: Form::of_run(bytes.len()).ok_or(Refusal::length())?, bytes };
        run.check_mark()?;
        run.check_zero_bytes(ZERO_BYTES..FIRST_TABLE)?;
        run.check_zero_bytes(run.form.tail())?;
        run.check_single_fields()?;
        run.check_tables()?;
        Ok(run)
    }

    #[inline]
    pub fn stretch(&self, table: Table) -> &'lent [u8] {
        // the length by itself, so that it is known where the form is not
        &self.bytes[self.form.offset(table)..][..self.form.width(table) * table.entries()]
    }

    fn check_mark(&self) -> Result<(), Refusal> {
        match self.bytes.iter().zip(self.form.mark()).position(|(&found, wanted)| found != wanted) {
            Some(place) => Err(Refusal::mark(place)),
            None => Ok(()),
        }
    }

    #[inline]
    fn check_zero_bytes(&self, places: Range<usize>) -> Result<(), Refusal> {
        match first_non_zero(&self.bytes[places.clone()]) {
            Some(place) => Err(Refusal::mark(places.start + place)),
            None => Ok(()),
        }
    }

    fn check_single_fields(&self) -> Result<(), Refusal> {
        let run = self.bytes;
        if !(FIRST_YEAR..=LAST_FOUNDATION_YEAR).contains(&short(run, FOUNDATION_YEAR)) {
            return Err(Refusal::field(FOUNDATION_YEAR));
        }
        if !(FIRST_YEAR..=LAST_YEAR).contains(&short(run, BASE_YEAR)) {
            return Err(Refusal::field(BASE_YEAR));
        }
        if !ADDITIONS.contains(&signed(run, CONSTANT_ADDITION)) {
            return Err(Refusal::field(CONSTANT_ADDITION));
        }
        if !DISCOUNT_RATES.contains(&signed(run, DISCOUNT_RATE)) {
            return Err(Refusal::field(DISCOUNT_RATE));
        }
        Ok(())
    }

    fn check_tables(&self) -> Result<(), Refusal> {
        self.check_rates(BaseRates, AGES, &MORTALITY_RATES)?;
        // the long-term rates follow the initial ones, and are looked at with them
        self.check_rates(AgeInitial, 2 * AGES, &IMPROVEMENT_RATES)?;
        self.check_periods(AgePeriods)?;
        self.check_proportions(AgeProportions)?;
        self.check_rates(BirthInitial, 2 * BIRTH_YEARS, &IMPROVEMENT_RATES)?;
        self.check_periods(BirthPeriods)?;
        self.check_proportions(BirthProportions)
    }

    #[inline]
    fn check_rates(&self, table: Table, count: usize, limits: &RangeInclusive<i32>) -> Result<(), Refusal> {
        let rates = &self.bytes[self.form.offset(table)..][..4 * count];
        self.refuse(table, first_bad_number(rates, limits))
    }

    #[inline]
    fn check_periods(&self, table: Table) -> Result<(), Refusal> {
        self.refuse(table, first_bad_byte(self.stretch(table), &PERIODS))
    }

    #[inline]
    fn check_proportions(&self, table: Table) -> Result<(), Refusal> {
        let stretch = self.stretch(table);
        self.refuse(
            table,
            match self.form {
                Form::Mpb1 => first_bad_byte(stretch, &(0..=(PROPORTIONS.end() / HUNDREDTHS) as u8)),
                Form::Mpb2 => first_bad_short(stretch, &PROPORTIONS),
            },
        )
    }

    /// 5 at the entry that is bad, if one is.
    #[inline]
    fn refuse(&self, table: Table, bad: Option<usize>) -> Result<(), Refusal> {
        match bad {
            Some(index) => Err(Refusal::field(self.form.offset(table) + self.form.width(table) * index)),
            None => Ok(()),
        }
    }
}
