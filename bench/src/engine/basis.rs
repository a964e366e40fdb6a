//! A basis: a data run that has passed its checks with the history that its years need.
use super::form::{BY_AGE, BY_BIRTH_YEAR, Table};
use super::history::History;
use super::layout::*;
use super::refusal::Refusal;
use super::run::Run;
use super::terms::{Terms, entries};

/// An accepted data run with its single fields, and its history; the tables of both are read where they are used.
#[derive(Clone, Copy)]
pub struct Basis<'lent> {
    pub base_rates: &'lent [[u8; 4]; AGES],
    pub by_age: Terms<'lent, AGES>,
    pub by_birth_year: Terms<'lent, BIRTH_YEARS>,
    pub history: History<'lent>,
    pub foundation_year: u32,
    pub base_year: u32,
    pub constant_addition: i64,
    pub discount_rate: i64,
}

impl<'lent> Basis<'lent> {
    /// Checks a lent run afresh, and after it the history that is lent beside it.
    pub fn accept(run: &'lent [u8], history: &'lent [u8]) -> Result<Self, Refusal> {
        let run = Run::accept(run)?;
        let (foundation_year, base_year) = (short(run.bytes, FOUNDATION_YEAR), short(run.bytes, BASE_YEAR));
        // a base year at the foundation year or later needs none
        let years = foundation_year.saturating_sub(base_year);
        Ok(Basis {
            base_rates: entries(&run, Table::BaseRates),
            by_age: Terms::new(&run, BY_AGE),
            by_birth_year: Terms::new(&run, BY_BIRTH_YEAR),
            history: History::accept(history, years as usize)?,
            foundation_year,
            base_year,
            constant_addition: i64::from(signed(run.bytes, CONSTANT_ADDITION)),
            discount_rate: i64::from(signed(run.bytes, DISCOUNT_RATE)),
        })
    }
}
