//! The enquiries: the run and the history are checked, then the question by 6, 8, 7, then the work is done.
use super::basis::Basis;
use super::layout::{FIRST_AGE, LAST_AGE, LAST_YEAR};
use super::refusal::Refusal;
use super::run::Run;
use super::valuation::Kind;

fn check_age(age: u32) -> Result<(), Refusal> {
    if (FIRST_AGE..=LAST_AGE).contains(&age) { Ok(()) } else { Err(Refusal::age(age)) }
}

fn check_year(year: u32, first: u32) -> Result<(), Refusal> {
    if (first..=LAST_YEAR).contains(&year) { Ok(()) } else { Err(Refusal::year(year)) }
}

/// 6, 8, 7 of an enquiry with a deferment.
pub fn check_question(basis: &Basis, age: u32, deferment: u32, year: u32) -> Result<(), Refusal> {
    check_age(age)?;
    if deferment > LAST_AGE - age {
        return Err(Refusal::deferment(age, deferment));
    }
    check_year(year, basis.base_year)
}

pub fn check_basis(run: &[u8]) -> Result<(), Refusal> {
    Run::accept(run).map(|_| ())
}

pub fn improvement(run: &[u8], history: &[u8], age: u32, year: u32) -> Result<i64, Refusal> {
    let basis = Basis::accept(run, history)?;
    check_age(age)?;
    check_year(year, basis.first_improvement_year())?;
    basis.improvement(age, year)
}

pub fn factor(run: &[u8], history: &[u8], age: u32, year: u32) -> Result<u64, Refusal> {
    let basis = Basis::accept(run, history)?;
    check_question(&basis, age, 0, year)?;
    basis.factor(age, year)
}

pub fn rate(run: &[u8], history: &[u8], age: u32, year: u32) -> Result<u64, Refusal> {
    let basis = Basis::accept(run, history)?;
    check_question(&basis, age, 0, year)?;
    basis.rate(age, year)
}

/// The deferment is the number of years survived.
pub fn survivorship(
    run: &[u8],
    history: &[u8],
    kind: Kind,
    age: u32,
    deferment: u32,
    year: u32,
) -> Result<u64, Refusal> {
    let basis = Basis::accept(run, history)?;
    check_question(&basis, age, deferment, year)?;
    basis.survivorship(kind, age, deferment, year)
}

pub fn expectation(
    run: &[u8],
    history: &[u8],
    kind: Kind,
    age: u32,
    deferment: u32,
    year: u32,
) -> Result<u64, Refusal> {
    let basis = Basis::accept(run, history)?;
    check_question(&basis, age, deferment, year)?;
    basis.expectation(kind, age, deferment, year)
}

pub fn annuity(run: &[u8], history: &[u8], kind: Kind, age: u32, deferment: u32, year: u32) -> Result<u64, Refusal> {
    let basis = Basis::accept(run, history)?;
    check_question(&basis, age, deferment, year)?;
    basis.annuity(kind, age, deferment, year)
}
