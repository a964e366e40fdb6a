//! How cost grows with the years since the base, the ages up to 150 and the records of the grid that are answered, by the
//! year sweep and point by point. Prints lines of CSV: what grows, how much of it, nanoseconds of a call in the archive
//! and in the Rust engine.
//! growth [TURNS]
use parvusek_bench::bases::Draft;
use parvusek_bench::engine::enquiries;
use parvusek_bench::engine::sets::{self, GRID, Record};
use parvusek_bench::engine::valuation::Kind;
use parvusek_bench::ffi::{self, Question, Records};
use parvusek_bench::timing::race;
use std::env;
use std::hint::black_box;
use std::time::Duration;

const MEASURE: Duration = Duration::from_micros(200);
const ROUNDS: usize = 9;
const BASE_YEAR: u32 = 2006;
const COHORT_ANNUITY: usize = 5;
/// The base year is the foundation year, so that no history is needed.
const NO_HISTORY: &[u8] = &[];

/// An amount of what grows, the work that it makes for both engines, and the least medians of the turns so far.
struct Point<'a> {
    what: &'static str,
    amount: u32,
    proved: Box<dyn FnMut() + 'a>,
    rust: Box<dyn FnMut() + 'a>,
    least: (f64, f64),
}

impl<'a> Point<'a> {
    fn new(what: &'static str, amount: u32, proved: impl FnMut() + 'a, rust: impl FnMut() + 'a) -> Self {
        Point { what, amount, proved: Box::new(proved), rust: Box::new(rust), least: (f64::MAX, f64::MAX) }
    }

    fn measure(&mut self) {
        let timing = race(ROUNDS, MEASURE, &mut *self.proved, &mut *self.rust);
        self.least = (self.least.0.min(timing.first), self.least.1.min(timing.second));
    }
}

fn done<T>(answer: T) {
    black_box(answer);
}

fn factor(run: &[u8], years: u32) -> Point<'_> {
    let year = BASE_YEAR + years;
    Point::new(
        "years since the base (factor)",
        years,
        move || done(ffi::factor(black_box(run), NO_HISTORY, 65, year)),
        move || done(enquiries::factor(black_box(run), NO_HISTORY, 65, year)),
    )
}

fn annuity(run: &[u8], ages: u32) -> Point<'_> {
    let age = 150 - ages;
    let question = Question { age, deferment: 0, year: BASE_YEAR };
    Point::new(
        "ages to 150 (cohort annuity)",
        ages,
        move || done(ffi::enquiry(COHORT_ANNUITY, black_box(run), NO_HISTORY, question)),
        move || done(enquiries::annuity(black_box(run), NO_HISTORY, Kind::Cohort, age, 0, BASE_YEAR)),
    )
}

/// The grid has 119 records always; those not counted here ask about age 0 and are refused at once.
fn records(answered: usize) -> [Record; GRID] {
    std::array::from_fn(|index| {
        let age = if index < answered { 65 } else { 0 };
        Record { age, deferment: 0, year: BASE_YEAR, refusal: 0, results: [0; 4], first: 0, second: 0 }
    })
}

fn direct_grid(run: &[u8], answered: usize) -> Point<'_> {
    let points = records(answered);
    let mut own = points;
    Point::new(
        "records at 65 (grid point by point)",
        answered as u32,
        move || done(ffi::direct_grid(black_box(run), NO_HISTORY, black_box(Records { points }))),
        move || done(sets::direct_grid(black_box(run), NO_HISTORY, black_box(&mut own))),
    )
}

fn grid(run: &[u8], answered: usize) -> Point<'_> {
    let mut lent = records(answered);
    let mut own = lent;
    Point::new(
        "records at 65 (grid by the sweep)",
        answered as u32,
        move || done(ffi::grid(black_box(run), NO_HISTORY, black_box(&mut lent))),
        move || done(sets::grid(black_box(run), NO_HISTORY, black_box(&mut own))),
    )
}

fn main() {
    let turns = env::args().nth(1).and_then(|word| word.parse().ok()).unwrap_or(9);
    let run = Draft::benchmark().run;
    let mut points: Vec<Point> = (0..=124).step_by(4).map(|years| factor(&run, years)).collect();
    points.extend((0..=130).step_by(5).map(|ages| annuity(&run, ages)));
    points.extend((0..=GRID).step_by(17).map(|answered| grid(&run, answered)));
    points.extend((0..=GRID).step_by(17).map(|answered| direct_grid(&run, answered)));
    for _ in 0..turns {
        points.iter_mut().for_each(Point::measure);
    }
    println!("what,amount,proved,rust");
    for Point { what, amount, least: (proved, rust), .. } in points {
        println!("{what},{amount},{proved:.0},{rust:.0}");
    }
}
