//! Model points: a question with four results, singly, by the small set of six and by the grid of 119.

use crate::ffi;
use crate::{Basis, Refusal};

/// Points of the small set.
pub const SMALL_SET: usize = 6;

/// Records of the grid.
pub const GRID: usize = 119;

/// An age, a deferment in years and a calendar year.
#[repr(C)]
#[derive(Clone, Copy, Debug, Default, PartialEq, Eq, Hash)]
pub struct Question {
    /// The age today, 20 to 150.
    pub age: u32,
    /// Years until the expectation or the payment begins.
    pub deferment: u32,
    /// The year, from the base year to 2130; with the deferment it may be later.
    pub year: u32,
}

/// The four results of a model point, in units.
#[derive(Clone, Copy, Debug, PartialEq, Eq, Hash)]
pub struct Results {
    /// Expectation of life by the rates of one year.
    pub period_expectation: u64,
    /// Expectation of life by the rates of the years that the life reaches.
    pub cohort_expectation: u64,
    /// Annuity by the rates of one year.
    pub period_annuity: u64,
    /// Annuity by the rates of the years that the life reaches.
    pub cohort_annuity: u64,
}

impl From<[u64; 4]> for Results {
    fn from([period_expectation, cohort_expectation, period_annuity, cohort_annuity]: [u64; 4]) -> Results {
        Results { period_expectation, cohort_expectation, period_annuity, cohort_annuity }
    }
}

/// A record of the grid: a question, and its answer once a grid has filled it in.
#[repr(C)]
#[derive(Clone, Copy, Debug, Default, PartialEq, Eq, Hash)]
pub struct Record {
    question: Question,
    number: u32,
    results: [u64; 4],
    first: u64,
    second: u64,
}

impl Record {
    /// A record with a question and no answer yet: its results are 0.
    pub fn new(question: Question) -> Record {
        Record { question, ..Record::default() }
    }

    /// The question, which no grid changes.
    pub fn question(&self) -> Question {
        self.question
    }

    /// The four results, or the refusal of this record.
    pub fn answer(&self) -> Result<Results, Refusal> {
        let refusal = Refusal { number: self.number, first: self.first, second: self.second };
        refusal.unless_none().map(|()| self.results.into())
    }
}

impl Basis {
    /// The small set: six questions, each with its four results or its refusal. The set as a whole is refused by 13
    /// where this basis needs a history and has none.
    ///
    /// ```
    /// # use parvusek::{decimal, Basis, Question};
    /// # let basis = Basis::open("../../samples/basis.bin")?;
    /// let questions = [60, 61, 62, 63, 64, 151].map(|age| Question { age, deferment: 0, year: 2010 });
    /// let answers = basis.small_set(&questions)?;
    /// assert!(answers[..5].iter().all(|answer| answer.is_ok()));
    /// assert_eq!(answers[5].unwrap_err().number, 6);
    /// # Ok::<(), Box<dyn std::error::Error>>(())
    /// ```
    pub fn small_set(
        &self,
        questions: &[Question; SMALL_SET],
    ) -> Result<[Result<Results, Refusal>; SMALL_SET], Refusal> {
        let (run, run_len, history, history_len) = self.lent();
        let points = ffi::Questions { points: *questions };
        // SAFETY: the pointers and lengths are those of the run and the history; every number may be asked.
        let set = unsafe { ffi::parvusek_small_set(run, run_len, history, history_len, points) };
        set.refusal.unless_none()?;
        Ok(set.points.map(|point| point.refusal.unless_none().map(|()| point.results.into())))
    }

    /// The grid: fills the first 119 records in place and leaves the others. Fewer are refused by 11; then the whole is
    /// refused by 13, and no record changes, where this basis needs a history and has none.
    ///
    /// ```
    /// # use parvusek::{Basis, Question, Record, GRID};
    /// # let basis = Basis::open("../../samples/basis.bin")?;
    /// let mut records = [Record::new(Question { age: 65, deferment: 0, year: 2010 }); GRID];
    /// basis.grid(&mut records)?;
    /// assert_eq!(records[118].answer()?.cohort_annuity, 15_698_927_802);
    ///
    /// let refusal = basis.grid(&mut records[1..]).unwrap_err();
    /// assert_eq!(refusal.to_string(), "refused 11: lent output too short (needed 119)");
    /// # Ok::<(), Box<dyn std::error::Error>>(())
    /// ```
    pub fn grid(&self, records: &mut [Record]) -> Result<(), Refusal> {
        let (run, run_len, history, history_len) = self.lent();
        let (points, count) = (records.as_mut_ptr(), records.len());
        // SAFETY: the pointers and lengths are those of the run, the history and a slice of records, which do not overlap.
        unsafe { ffi::parvusek_grid(run, run_len, history, history_len, points, count) }.unless_none()
    }

    /// Any number of questions, answered in their order by as many grids as they fill. All of them are refused by 13
    /// where this basis needs a history and has none.
    ///
    /// ```
    /// # use parvusek::{Basis, Question};
    /// # let basis = Basis::open("../../samples/basis.bin")?;
    /// let members: Vec<Question> = (20..=150).map(|age| Question { age, deferment: 0, year: 2010 }).collect();
    /// let answers = basis.value(&members)?;
    /// assert_eq!(answers.len(), members.len());
    /// assert_eq!(answers[65 - 20]?.cohort_annuity, 15_698_927_802);
    /// # Ok::<(), Box<dyn std::error::Error>>(())
    /// ```
    pub fn value(&self, questions: &[Question]) -> Result<Vec<Result<Results, Refusal>>, Refusal> {
        let mut answers = Vec::with_capacity(questions.len());
        for part in questions.chunks(GRID) {
            // Records of age 0 fill the grid up: they are refused at once and cost nothing.
            let mut records = [Record::default(); GRID];
            for (record, question) in records.iter_mut().zip(part) {
                *record = Record::new(*question);
            }
            self.grid(&mut records)?;
            answers.extend(records[..part.len()].iter().map(Record::answer));
        }
        Ok(answers)
    }
}
