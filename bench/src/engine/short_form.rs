//! The short form: a run whose long-term rates, periods and proportions come from one long-term rate.
use super::file::lent_output;
use super::form::{Form, Table::*};
use super::layout::*;
use super::refusal::Refusal;
use super::run::Run;
use super::units::rounded;

/// All of the long-term rate to age 90, a thirtieth of it less for each year after, nothing from 120.
fn long_term_rate_at(age: u32, long_term_rate: i32) -> i32 {
    let share = 120 - age.clamp(90, 120);
    // no larger than the long-term rate itself, so it fits
    rounded(i64::from(long_term_rate) * i64::from(share), 30) as i32
}

/// Full to age 60, then a year less at every second age down to 5 at 90.
fn period_at(age: u32) -> u8 {
    20 - (age.clamp(60, 90) as u8 - 60) / 2
}

/// Writes the short form of an accepted run, in the run's own form.
pub fn short_form(run: &[u8], long_term_rate: i32, out: &mut [u8]) -> Result<(), Refusal> {
    let out = lent_output(out, Form::of_run(run.len()).unwrap_or(Form::Mpb1).run_length())?;
    let Run { form, bytes } = Run::accept(run)?;
    if !IMPROVEMENT_RATES.contains(&long_term_rate) {
        return Err(Refusal::field(form.offset(AgeLongTerm)));
    }
    out.copy_from_slice(bytes);
    for (entry, age) in out[form.stretch(AgeLongTerm)].chunks_exact_mut(4).zip(FIRST_AGE..) {
        entry.copy_from_slice(&long_term_rate_at(age, long_term_rate).to_le_bytes());
    }
    out[form.stretch(BirthLongTerm)].fill(0);
    for (entry, age) in out[form.stretch(AgePeriods)].iter_mut().zip(FIRST_AGE..) {
        *entry = period_at(age);
    }
    out[form.stretch(BirthPeriods)].fill(20);
    for table in [AgeProportions, BirthProportions] {
        fill_with_half(form, &mut out[form.stretch(table)]);
    }
    Ok(())
}

/// Every P is 50 per cent.
fn fill_with_half(form: Form, entries: &mut [u8]) {
    match form {
        Form::Mpb1 => entries.fill(50),
        Form::Mpb2 => entries.as_chunks_mut().0.fill(5_000u16.to_le_bytes()),
    }
}

#[cfg(test)]
mod tests {
    use super::*;

    #[test]
    fn the_rates_of_01() {
        let at = |age| long_term_rate_at(age, 10_000_000);
        assert_eq!([20, 90, 91, 119, 120, 150].map(at), [10_000_000, 10_000_000, 9_666_667, 333_333, 0, 0]);
        assert_eq!(long_term_rate_at(100, 15_000_000), 10_000_000);
        assert_eq!(long_term_rate_at(105, -1), 0); // a tie goes up
    }

    #[test]
    fn the_periods_of_change_8() {
        let ages = [20, 60, 61, 62, 63, 64, 75, 76, 88, 89, 90, 91, 92, 150];
        assert_eq!(ages.map(period_at), [20, 20, 20, 19, 19, 18, 13, 12, 6, 6, 5, 5, 5, 5]);
    }
}
