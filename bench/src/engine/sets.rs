//! The small set of six model points, and the grid of 119 records filled in place: from a year sweep, or point by point.
use super::basis::Basis;
use super::enquiries::check_question;
use super::refusal::Refusal;
use super::sweep::Swept;
use super::valuation::Kind;

pub const SMALL_SET: usize = 6;
pub const GRID: usize = 119;

#[derive(Clone, Copy, Debug, PartialEq, Eq)]
pub struct Question {
    pub age: u32,
    pub deferment: u32,
    pub year: u32,
}

/// Period and cohort expectation, period and cohort annuity.
pub type Results = [u64; 4];

/// A point's four results, or the first refusal on the way to them.
pub fn point(basis: &Basis, question: Question) -> Result<Results, Refusal> {
    let Question { age, deferment, year } = question;
    check_question(basis, age, deferment, year)?;
    Ok([
        basis.expectation(Kind::Period, age, deferment, year)?,
        basis.expectation(Kind::Cohort, age, deferment, year)?,
        basis.annuity(Kind::Period, age, deferment, year)?,
        basis.annuity(Kind::Cohort, age, deferment, year)?,
    ])
}

pub type SmallSet = [Result<Results, Refusal>; SMALL_SET];

pub fn small_set(run: &[u8], history: &[u8], questions: &[Question; SMALL_SET]) -> Result<SmallSet, Refusal> {
    let basis = Basis::accept(run, history)?;
    Ok(questions.map(|question| point(&basis, question)))
}

/// A record of the grid.
#[derive(Clone, Copy, Debug, PartialEq, Eq)]
#[repr(C)]
pub struct Record {
    pub age: u32,
    pub deferment: u32,
    pub year: u32,
    pub refusal: u32,
    pub results: Results,
    pub first: u64,
    pub second: u64,
}

impl Record {
    fn question(&self) -> Question {
        Question { age: self.age, deferment: self.deferment, year: self.year }
    }

    fn answer(&mut self, outcome: Result<Results, Refusal>) {
        match outcome {
            Ok(results) => {
                self.results = results;
                (self.refusal, self.first, self.second) = (0, 0, 0);
            }
            Err(refusal) => {
                self.results = [0; 4];
                (self.refusal, self.first, self.second) = (refusal.number, refusal.first, refusal.second);
            }
        }
    }
}

pub fn grid(run: &[u8], history: &[u8], records: &mut [Record]) -> Result<(), Refusal> {
    let (basis, records) = accept_grid(run, history, records)?;
    let swept = Swept::new(basis);
    for record in records {
        let question = record.question();
        let Question { age, deferment, year } = question;
        record.answer(check_question(&basis, age, deferment, year).and_then(|()| swept.point(question)));
    }
    Ok(())
}

/// The same answers, each record's for itself.
pub fn direct_grid(run: &[u8], history: &[u8], records: &mut [Record]) -> Result<(), Refusal> {
    let (basis, records) = accept_grid(run, history, records)?;
    records.iter_mut().for_each(|record| record.answer(point(&basis, record.question())));
    Ok(())
}

/// The records that are answered, if there are enough of them and the basis is accepted.
fn accept_grid<'lent, 'records>(
    run: &'lent [u8],
    history: &'lent [u8],
    records: &'records mut [Record],
) -> Result<(Basis<'lent>, &'records mut [Record]), Refusal> {
    let Some(records) = records.get_mut(..GRID) else {
        return Err(Refusal::output(GRID));
    };
    Ok((Basis::accept(run, history)?, records))
}
