//! The lifeline: one life followed along its cohort, year by year.

use std::iter::FusedIterator;

use crate::ffi;
use crate::{Basis, Refusal};

/// Where a life stands.
#[derive(Clone, Copy, Debug, PartialEq, Eq, Hash)]
pub struct Standing {
    /// The age reached.
    pub age: u32,
    /// The year reached.
    pub year: u32,
    /// The survivors of one, in units.
    pub survivors: u64,
}

/// One life on a basis, whose run and history are lent to each step. As an iterator it steps year by year up to age 150,
/// and stops after a refusal.
///
/// ```
/// # use parvusek::{Basis, Kind, Standing, UNIT};
/// # let basis = Basis::open("../../samples/basis.bin")?;
/// let mut line = basis.lifeline(65, 2010)?;
/// assert_eq!(line.standing(), Standing { age: 65, year: 2010, survivors: UNIT });
///
/// let after_ten_years = line.nth(9).unwrap()?;
/// assert_eq!(after_ten_years.age, 75);
/// assert_eq!(after_ten_years.survivors, basis.survivorship(Kind::Cohort, 65, 10, 2010)?);
///
/// let last = line.last().unwrap()?;
/// assert_eq!((last.age, last.year), (150, 2095));
/// # Ok::<(), Box<dyn std::error::Error>>(())
/// ```
#[derive(Clone, Debug)]
pub struct Lifeline<'a> {
    basis: &'a Basis,
    standing: Standing,
    is_over: bool,
}

impl<'a> Lifeline<'a> {
    pub(crate) fn start(basis: &'a Basis, age: u32, year: u32) -> Result<Lifeline<'a>, Refusal> {
        let (run, run_len, history, history_len) = basis.lent();
        // SAFETY: the pointers and lengths are those of the run and the history; every number may be asked.
        let start = unsafe { ffi::parvusek_lifeline_start(run, run_len, history, history_len, age, year) };
        start.refusal.unless_none()?;
        Ok(Lifeline { basis, standing: standing(&start), is_over: false })
    }

    /// Where the life stands.
    pub fn standing(&self) -> Standing {
        self.standing
    }

    /// One year on: where the life then stands, or `None` where it has ended at age 150. A step that ends or is
    /// refused leaves the life where it stands.
    pub fn step(&mut self) -> Result<Option<Standing>, Refusal> {
        let (run, run_len, history, history_len) = self.basis.lent();
        let Standing { age, year, survivors } = self.standing;
        // SAFETY: the pointers and lengths are those of the run and the history; every number may be asked.
        let step = unsafe { ffi::parvusek_lifeline_step(run, run_len, history, history_len, age, year, survivors) };
        step.refusal.unless_none()?;
        self.standing = standing(&step);
        Ok((step.ended == 0).then_some(self.standing))
    }
}

impl Iterator for Lifeline<'_> {
    type Item = Result<Standing, Refusal>;

    fn next(&mut self) -> Option<Self::Item> {
        if self.is_over {
            return None;
        }
        let step = self.step().transpose();
        self.is_over = !matches!(step, Some(Ok(_)));
        step
    }
}

impl FusedIterator for Lifeline<'_> {}

fn standing(line: &ffi::Lifeline) -> Standing {
    Standing { age: line.age, year: line.year, survivors: line.survivors }
}
