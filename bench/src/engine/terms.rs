//! One component's tables in an accepted run, from which the terms of an age or a birth year are read. How many entries
//! they have is part of their type, so that a place is checked once for all four.
use super::form::{Form, Table};
use super::layout::HUNDREDTHS;
use super::projection::Component;
use super::run::Run;

#[derive(Clone, Copy)]
pub struct Terms<'lent, const ENTRIES: usize> {
    initial_rates: &'lent [[u8; 4]; ENTRIES],
    long_term_rates: &'lent [[u8; 4]; ENTRIES],
    periods: &'lent [[u8; 1]; ENTRIES],
    proportions: Proportions<'lent, ENTRIES>,
}

#[derive(Clone, Copy)]
enum Proportions<'lent, const ENTRIES: usize> {
    PerCents(&'lent [[u8; 1]; ENTRIES]),
    Hundredths(&'lent [[u8; 2]; ENTRIES]),
}

/// A table of so many entries, each of so many bytes.
pub(super) fn entries<'lent, const WIDTH: usize, const ENTRIES: usize>(
    run: &Run<'lent>,
    table: Table,
) -> &'lent [[u8; WIDTH]; ENTRIES] {
    run.stretch(table).as_chunks().0.try_into().expect("a table has its entries")
}

impl<'lent, const ENTRIES: usize> Terms<'lent, ENTRIES> {
    /// Of the tables of I, L, T and P.
    pub fn new(run: &Run<'lent>, [initial, long_term, periods, proportions]: [Table; 4]) -> Self {
        Terms {
            initial_rates: entries(run, initial),
            long_term_rates: entries(run, long_term),
            periods: entries(run, periods),
            proportions: match run.form {
                Form::Mpb1 => Proportions::PerCents(entries(run, proportions)),
                Form::Mpb2 => Proportions::Hundredths(entries(run, proportions)),
            },
        }
    }

    #[inline]
    pub fn component(&self, index: usize) -> Component {
        Component {
            initial_rate: i64::from(i32::from_le_bytes(self.initial_rates[index])),
            long_term_rate: i64::from(i32::from_le_bytes(self.long_term_rates[index])),
            convergence_period: i64::from(self.periods[index][0]),
            proportion_remaining: self.proportions.hundredths(index),
        }
    }
}

impl<const ENTRIES: usize> Proportions<'_, ENTRIES> {
    #[inline]
    fn hundredths(&self, index: usize) -> i64 {
        i64::from(match self {
            Proportions::PerCents(entries) => HUNDREDTHS * u16::from(entries[index][0]),
            Proportions::Hundredths(entries) => u16::from_le_bytes(entries[index]),
        })
    }
}
