//! The proved archive's functions as `include/parvusek.h` declares them, behind safe calls. A slice is a pointer with
//! its true length, which is all that the archive asks for. Beside them the direct grid, which has an archive of its own
//! for tests and is not in the header.
use crate::engine::roll::Joiner;
use crate::engine::sets::{GRID, Record};
use crate::engine::{Refusal as EngineRefusal, lifeline, sets};

#[derive(Clone, Copy, Debug, PartialEq, Eq, Default)]
#[repr(C)]
pub struct Refusal {
    pub number: u32,
    pub first: u64,
    pub second: u64,
}

#[derive(Clone, Copy, Debug, PartialEq, Eq)]
#[repr(C)]
pub struct Answer {
    pub refusal: Refusal,
    pub value: u64,
}

#[derive(Clone, Copy, Debug, PartialEq, Eq)]
#[repr(C)]
pub struct SignedAnswer {
    pub refusal: Refusal,
    pub value: i64,
}

#[derive(Clone, Copy, Debug, PartialEq, Eq, Default)]
#[repr(C)]
pub struct Question {
    pub age: u32,
    pub deferment: u32,
    pub year: u32,
}

#[derive(Clone, Copy, Debug, PartialEq, Eq, Default)]
#[repr(C)]
pub struct Questions {
    pub points: [Question; 6],
}

#[derive(Clone, Copy, Debug, PartialEq, Eq, Default)]
#[repr(C)]
pub struct PointAnswer {
    pub results: [u64; 4],
    pub refusal: Refusal,
}

#[derive(Clone, Copy, Debug, PartialEq, Eq, Default)]
#[repr(C)]
pub struct SmallSet {
    pub refusal: Refusal,
    pub points: [PointAnswer; 6],
}

#[derive(Clone, Copy, Debug, PartialEq, Eq)]
#[repr(C)]
pub struct Lifeline {
    pub refusal: Refusal,
    pub survivors: u64,
    pub age: u32,
    pub year: u32,
    pub ended: u32,
}

/// What the direct grid is given and gives back by value.
#[derive(Clone, Copy, Debug, PartialEq, Eq)]
#[repr(C)]
pub struct Records {
    pub points: [Record; GRID],
}

/// The raw functions, for those who measure or who lend what no slice can express.
pub mod raw {
    use super::*;

    type Enquiry = unsafe extern "C" fn(*const u8, usize, *const u8, usize, u32, u32, u32) -> Answer;

    unsafe extern "C" {
        pub fn parvusek_check_basis(run: *const u8, run_len: usize) -> Refusal;
        pub fn parvusek_read_basis(file: *const u8, file_len: usize, run: *mut u8, run_len: usize) -> Refusal;
        pub fn parvusek_write_basis(run: *const u8, run_len: usize, file: *mut u8, file_len: usize) -> Refusal;
        pub fn parvusek_write_old_form(run: *const u8, run_len: usize, file: *mut u8, file_len: usize) -> Refusal;
        pub fn parvusek_short_form(
            run: *const u8,
            run_len: usize,
            long_term_rate: i32,
            out: *mut u8,
            out_len: usize,
        ) -> Refusal;
    }

    /// Declares calls that are lent a data run and its history, which the header has before their other arguments.
    macro_rules! lent_a_history {
        ($(fn $name:ident($($more:ident: $of:ty),*) -> $answer:ty;)*) => {
            unsafe extern "C" {
                $(pub fn $name(
                    run: *const u8,
                    run_len: usize,
                    history: *const u8,
                    history_len: usize,
                    $($more: $of),*
                ) -> $answer;)*
            }
        };
    }

    lent_a_history! {
        fn parvusek_improvement(age: u32, year: u32) -> SignedAnswer;
        fn parvusek_factor(age: u32, year: u32) -> Answer;
        fn parvusek_rate(age: u32, year: u32) -> Answer;
        fn parvusek_period_survivorship(age: u32, deferment: u32, year: u32) -> Answer;
        fn parvusek_cohort_survivorship(age: u32, deferment: u32, year: u32) -> Answer;
        fn parvusek_period_expectation(age: u32, deferment: u32, year: u32) -> Answer;
        fn parvusek_cohort_expectation(age: u32, deferment: u32, year: u32) -> Answer;
        fn parvusek_period_annuity(age: u32, deferment: u32, year: u32) -> Answer;
        fn parvusek_cohort_annuity(age: u32, deferment: u32, year: u32) -> Answer;
        fn parvusek_small_set(questions: Questions) -> SmallSet;
        fn parvusek_grid(points: *mut Record, count: usize) -> Refusal;
        fn parvusek_lifeline_start(age: u32, year: u32) -> Lifeline;
        fn parvusek_lifeline_step(age: u32, year: u32, survivors: u64) -> Lifeline;
        fn parvusek_roll_join(roll: *mut u64, roll_len: usize, number: u32, age: u32, pension: u32) -> Answer;
    }

    unsafe extern "C" {
        pub fn parvusek_roll_open(year: u32, roll: *mut u64, roll_len: usize) -> Refusal;
        pub fn parvusek_roll_leave(roll: *mut u64, roll_len: usize, number: u32) -> Answer;
        pub fn parvusek_roll_total(roll: *const u64, roll_len: usize) -> Answer;
    }

    // of the direct grid's archive
    lent_a_history! {
        fn parvusek_direct_grid(records: Records) -> Records;
    }

    /// The six enquiries of one shape, by the header's order.
    pub const ENQUIRIES: [Enquiry; 6] = [
        parvusek_period_survivorship,
        parvusek_cohort_survivorship,
        parvusek_period_expectation,
        parvusek_cohort_expectation,
        parvusek_period_annuity,
        parvusek_cohort_annuity,
    ];
}

pub fn check_basis(run: &[u8]) -> Refusal {
    unsafe { raw::parvusek_check_basis(run.as_ptr(), run.len()) }
}

pub fn read_basis(file: &[u8], run: &mut [u8]) -> Refusal {
    unsafe { raw::parvusek_read_basis(file.as_ptr(), file.len(), run.as_mut_ptr(), run.len()) }
}

pub fn write_basis(run: &[u8], file: &mut [u8]) -> Refusal {
    unsafe { raw::parvusek_write_basis(run.as_ptr(), run.len(), file.as_mut_ptr(), file.len()) }
}

pub fn write_old_form(run: &[u8], file: &mut [u8]) -> Refusal {
    unsafe { raw::parvusek_write_old_form(run.as_ptr(), run.len(), file.as_mut_ptr(), file.len()) }
}

pub fn short_form(run: &[u8], long_term_rate: i32, out: &mut [u8]) -> Refusal {
    unsafe { raw::parvusek_short_form(run.as_ptr(), run.len(), long_term_rate, out.as_mut_ptr(), out.len()) }
}

pub fn improvement(run: &[u8], history: &[u8], age: u32, year: u32) -> SignedAnswer {
    unsafe { raw::parvusek_improvement(run.as_ptr(), run.len(), history.as_ptr(), history.len(), age, year) }
}

pub fn factor(run: &[u8], history: &[u8], age: u32, year: u32) -> Answer {
    unsafe { raw::parvusek_factor(run.as_ptr(), run.len(), history.as_ptr(), history.len(), age, year) }
}

pub fn rate(run: &[u8], history: &[u8], age: u32, year: u32) -> Answer {
    unsafe { raw::parvusek_rate(run.as_ptr(), run.len(), history.as_ptr(), history.len(), age, year) }
}

/// One of the six enquiries of `raw::ENQUIRIES`.
pub fn enquiry(which: usize, run: &[u8], history: &[u8], question: Question) -> Answer {
    let Question { age, deferment, year } = question;
    let ask = raw::ENQUIRIES[which];
    unsafe { ask(run.as_ptr(), run.len(), history.as_ptr(), history.len(), age, deferment, year) }
}

pub fn small_set(run: &[u8], history: &[u8], questions: Questions) -> SmallSet {
    unsafe { raw::parvusek_small_set(run.as_ptr(), run.len(), history.as_ptr(), history.len(), questions) }
}

pub fn grid(run: &[u8], history: &[u8], records: &mut [Record]) -> Refusal {
    let (points, count) = (records.as_mut_ptr(), records.len());
    unsafe { raw::parvusek_grid(run.as_ptr(), run.len(), history.as_ptr(), history.len(), points, count) }
}

/// The records with the answers of the direct engine, or as they came where the basis is refused.
pub fn direct_grid(run: &[u8], history: &[u8], records: Records) -> Records {
    unsafe { raw::parvusek_direct_grid(run.as_ptr(), run.len(), history.as_ptr(), history.len(), records) }
}

pub fn lifeline_start(run: &[u8], history: &[u8], age: u32, year: u32) -> Lifeline {
    unsafe { raw::parvusek_lifeline_start(run.as_ptr(), run.len(), history.as_ptr(), history.len(), age, year) }
}

pub fn lifeline_step(run: &[u8], history: &[u8], age: u32, year: u32, survivors: u64) -> Lifeline {
    let (lent, length) = (history.as_ptr(), history.len());
    unsafe { raw::parvusek_lifeline_step(run.as_ptr(), run.len(), lent, length, age, year, survivors) }
}

pub fn roll_open(year: u32, roll: &mut [u64]) -> Refusal {
    unsafe { raw::parvusek_roll_open(year, roll.as_mut_ptr(), roll.len()) }
}

pub fn roll_join(run: &[u8], history: &[u8], roll: &mut [u64], joiner: Joiner) -> Answer {
    let (lent, length) = (history.as_ptr(), history.len());
    let (numbers, count) = (roll.as_mut_ptr(), roll.len());
    let Joiner { number, age, pension } = joiner;
    unsafe { raw::parvusek_roll_join(run.as_ptr(), run.len(), lent, length, numbers, count, number, age, pension) }
}

pub fn roll_leave(roll: &mut [u64], number: u32) -> Answer {
    unsafe { raw::parvusek_roll_leave(roll.as_mut_ptr(), roll.len(), number) }
}

pub fn roll_total(roll: &[u64]) -> Answer {
    unsafe { raw::parvusek_roll_total(roll.as_ptr(), roll.len()) }
}

// ---- what the header promises where the Rust engine answers so

impl From<EngineRefusal> for Refusal {
    fn from(EngineRefusal { number, first, second }: EngineRefusal) -> Self {
        Refusal { number, first, second }
    }
}

impl From<Result<(), EngineRefusal>> for Refusal {
    fn from(outcome: Result<(), EngineRefusal>) -> Self {
        outcome.map_or_else(Refusal::from, |()| Refusal::default())
    }
}

impl From<Result<u64, EngineRefusal>> for Answer {
    fn from(outcome: Result<u64, EngineRefusal>) -> Self {
        match outcome {
            Ok(value) => Answer { refusal: Refusal::default(), value },
            Err(refusal) => Answer { refusal: refusal.into(), value: 0 },
        }
    }
}

impl From<Result<i64, EngineRefusal>> for SignedAnswer {
    fn from(outcome: Result<i64, EngineRefusal>) -> Self {
        match outcome {
            Ok(value) => SignedAnswer { refusal: Refusal::default(), value },
            Err(refusal) => SignedAnswer { refusal: refusal.into(), value: 0 },
        }
    }
}

impl From<Result<sets::SmallSet, EngineRefusal>> for SmallSet {
    fn from(outcome: Result<sets::SmallSet, EngineRefusal>) -> Self {
        match outcome {
            Ok(points) => SmallSet {
                refusal: Refusal::default(),
                points: points.map(|point| match point {
                    Ok(results) => PointAnswer { results, refusal: Refusal::default() },
                    Err(refusal) => PointAnswer { results: [0; 4], refusal: refusal.into() },
                }),
            },
            Err(refusal) => SmallSet { refusal: refusal.into(), ..SmallSet::default() },
        }
    }
}

impl From<Question> for sets::Question {
    fn from(Question { age, deferment, year }: Question) -> Self {
        sets::Question { age, deferment, year }
    }
}

impl Lifeline {
    pub fn of_start(outcome: Result<lifeline::Position, EngineRefusal>) -> Self {
        match outcome {
            Ok(position) => Self::at(Refusal::default(), position, 0),
            Err(refusal) => Self::at(refusal.into(), lifeline::Position { age: 0, year: 0, survivors: 0 }, 0),
        }
    }

    /// Where a step from `position` leads: refused or ended, it leads nowhere.
    pub fn of_step(position: lifeline::Position, outcome: Result<lifeline::Step, EngineRefusal>) -> Self {
        match outcome {
            Ok(lifeline::Step::On(next)) => Self::at(Refusal::default(), next, 0),
            Ok(lifeline::Step::Ended) => Self::at(Refusal::default(), position, 1),
            Err(refusal) => Self::at(refusal.into(), position, 0),
        }
    }

    fn at(refusal: Refusal, position: lifeline::Position, ended: u32) -> Self {
        let lifeline::Position { age, year, survivors } = position;
        Lifeline { refusal, survivors, age, year, ended }
    }
}
