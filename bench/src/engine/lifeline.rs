//! The lifeline: one life's cohort survivorship, a year at a step. The caller keeps its position, and lends run and
//! history each time.
use super::basis::Basis;
use super::enquiries::check_question;
use super::layout::{FIRST_AGE, LAST_AGE, LAST_BIRTH_YEAR};
use super::refusal::Refusal;
use super::units::UNIT;

#[derive(Clone, Copy, Debug, PartialEq, Eq)]
pub struct Position {
    pub age: u32,
    pub year: u32,
    pub survivors: u64,
}

#[derive(Clone, Copy, Debug, PartialEq, Eq)]
pub enum Step {
    On(Position),
    Ended,
}

pub fn start(run: &[u8], history: &[u8], age: u32, year: u32) -> Result<Position, Refusal> {
    let basis = Basis::accept(run, history)?;
    check_question(&basis, age, 0, year)?;
    Ok(Position { age, year, survivors: UNIT })
}

/// One year on. Refused or ended, the position is as it was.
pub fn step(run: &[u8], history: &[u8], position: Position) -> Result<Step, Refusal> {
    let basis = Basis::accept(run, history)?;
    let Position { age, year, survivors } = position;
    if !(FIRST_AGE..=LAST_AGE).contains(&age) {
        return Err(Refusal::age(age));
    }
    // a year from the base year on is above every age, so the difference does not wrap
    if year < basis.base_year || year - age > LAST_BIRTH_YEAR {
        return Err(Refusal::year(year));
    }
    if survivors > UNIT {
        // the place behind the run's own fields
        return Err(Refusal::field(run.len()));
    }
    if age == LAST_AGE {
        return Ok(Step::Ended);
    }
    let survivors = basis.survive(survivors, age, year)?;
    Ok(Step::On(Position { age: age + 1, year: year + 1, survivors }))
}
