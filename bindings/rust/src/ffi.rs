//! The functions of `include/parvusek.h`, as C declares them.
//!
//! Each takes any stretch of bytes or numbers with its true length and any number, keeps no pointer, and writes only to the
//! output that it is lent, which must be aligned for its type and must not overlap an input. A slice is aligned, and Rust's
//! borrows see to the rest. A history of length 0 is none.

use crate::{Question, Record, Refusal};

#[repr(C)]
pub struct Answer {
    pub refusal: Refusal,
    pub value: u64,
}

#[repr(C)]
pub struct SignedAnswer {
    pub refusal: Refusal,
    pub value: i64,
}

#[repr(C)]
pub struct Questions {
    pub points: [Question; 6],
}

#[repr(C)]
pub struct PointAnswer {
    pub results: [u64; 4],
    pub refusal: Refusal,
}

#[repr(C)]
pub struct SmallSet {
    pub refusal: Refusal,
    pub points: [PointAnswer; 6],
}

#[repr(C)]
pub struct Lifeline {
    pub refusal: Refusal,
    pub survivors: u64,
    pub age: u32,
    pub year: u32,
    pub ended: u32,
}

pub type Cell = unsafe extern "C" fn(*const u8, usize, *const u8, usize, u32, u32) -> Answer;
pub type Value = unsafe extern "C" fn(*const u8, usize, *const u8, usize, u32, u32, u32) -> Answer;

extern "C" {
    pub fn parvusek_version() -> u32;
    pub fn parvusek_check_basis(run: *const u8, run_len: usize) -> Refusal;
    pub fn parvusek_read_basis(file: *const u8, file_len: usize, run: *mut u8, run_len: usize) -> Refusal;
    pub fn parvusek_write_basis(run: *const u8, run_len: usize, file: *mut u8, file_len: usize) -> Refusal;
    pub fn parvusek_write_old_form(run: *const u8, run_len: usize, file: *mut u8, file_len: usize) -> Refusal;
    pub fn parvusek_short_form(run: *const u8, run_len: usize, rate: i32, out: *mut u8, out_len: usize) -> Refusal;
    pub fn parvusek_roll_open(year: u32, roll: *mut u64, roll_len: usize) -> Refusal;
    pub fn parvusek_roll_leave(roll: *mut u64, roll_len: usize, number: u32) -> Answer;
    pub fn parvusek_roll_total(roll: *const u64, roll_len: usize) -> Answer;
}

/// Every other function is lent a history directly after the data run: declares what each takes after both.
macro_rules! lent_a_history {
    ($($name:ident($($argument:ident: $kind:ty),*) -> $answer:ty;)*) => {
        extern "C" {
            $(pub fn $name(
                run: *const u8,
                run_len: usize,
                history: *const u8,
                history_len: usize,
                $($argument: $kind),*
            ) -> $answer;)*
        }
    };
}

lent_a_history! {
    parvusek_improvement(age: u32, year: u32) -> SignedAnswer;
    parvusek_factor(age: u32, year: u32) -> Answer;
    parvusek_rate(age: u32, year: u32) -> Answer;

    parvusek_period_survivorship(age: u32, deferment: u32, year: u32) -> Answer;
    parvusek_cohort_survivorship(age: u32, deferment: u32, year: u32) -> Answer;
    parvusek_period_expectation(age: u32, deferment: u32, year: u32) -> Answer;
    parvusek_cohort_expectation(age: u32, deferment: u32, year: u32) -> Answer;
    parvusek_period_annuity(age: u32, deferment: u32, year: u32) -> Answer;
    parvusek_cohort_annuity(age: u32, deferment: u32, year: u32) -> Answer;

    parvusek_small_set(questions: Questions) -> SmallSet;
    parvusek_grid(points: *mut Record, count: usize) -> Refusal;

    parvusek_lifeline_start(age: u32, year: u32) -> Lifeline;
    parvusek_lifeline_step(age: u32, year: u32, survivors: u64) -> Lifeline;

    parvusek_roll_join(roll: *mut u64, roll_len: usize, number: u32, age: u32, pension: u32) -> Answer;
}
