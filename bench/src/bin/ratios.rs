//! The proved archive and the Rust engine on the same enquiries in one run, in turn; prints the ratios proved / Rust.
//! After them, in the same way, how many times as fast the proved grid is by its year sweep as point by point.
//! ratios [--rounds N] [--markdown]
use parvusek_bench::bases::{Draft, draft::Component, files, histories};
use parvusek_bench::engine::form::Form;
use parvusek_bench::engine::layout::*;
use parvusek_bench::engine::sets::{self, GRID, Record};
use parvusek_bench::engine::valuation::Kind;
use parvusek_bench::engine::{enquiries, file, short_form};
use parvusek_bench::ffi::{self, Question, Questions, Records};
use parvusek_bench::timing::{Settings, Timing, race, race_cold, settings};
use std::hint::black_box;
use std::time::Duration;

const MEASURE: Duration = Duration::from_micros(400);

/// What both engines are lent, and the base year, from which the years that are asked count.
#[derive(Clone, Copy)]
struct Lent<'a> {
    run: &'a [u8],
    history: &'a [u8],
    base_year: u32,
}

impl<'a> Lent<'a> {
    fn new(draft: &'a Draft, history: &'a [u8]) -> Self {
        Lent { run: &draft.run, history, base_year: short(&draft.run, BASE_YEAR) }
    }

    /// The run and the history, without the compiler's knowing that they do not change.
    fn bytes(&self) -> (&'a [u8], &'a [u8]) {
        black_box((self.run, self.history))
    }
}

/// A piece of work done in two ways, by name: by both engines, the proved one first, unless its table says otherwise.
struct Case<'a> {
    name: String,
    first: Box<dyn FnMut() + 'a>,
    second: Box<dyn FnMut() + 'a>,
}

fn case<'a>(name: &str, first: impl FnMut() + 'a, second: impl FnMut() + 'a) -> Case<'a> {
    Case { name: name.into(), first: Box::new(first), second: Box::new(second) }
}

/// Keeps the compiler from leaving out work whose answer nobody reads.
fn done<T>(answer: T) {
    black_box(answer);
}

/// The four results of a point with their names, by the place in `ffi::raw::ENQUIRIES`.
const RESULTS: [(usize, &str); 4] =
    [(2, "period expectation"), (3, "cohort expectation"), (4, "period annuity"), (5, "cohort annuity")];

fn result<'a>(lent: Lent<'a>, which: usize, name: &str, age: u32) -> Case<'a> {
    result_in(lent, which, &format!("{name}, age {age}"), age, lent.base_year + 4)
}

fn result_in<'a>(lent: Lent<'a>, which: usize, name: &str, age: u32, year: u32) -> Case<'a> {
    let question = Question { age, deferment: 0, year };
    let kind = if which.is_multiple_of(2) { Kind::Period } else { Kind::Cohort };
    let ask = if which < 4 { enquiries::expectation } else { enquiries::annuity };
    case(
        name,
        move || {
            let (run, history) = lent.bytes();
            done(ffi::enquiry(which, run, history, black_box(question)))
        },
        move || {
            let (run, history) = lent.bytes();
            let Question { age, deferment, year } = black_box(question);
            done(ask(run, history, kind, age, deferment, year))
        },
    )
}

type Cell<T> = fn(&[u8], &[u8], u32, u32) -> T;

fn cell<'a>(
    lent: Lent<'a>,
    name: &str,
    years: u32,
    proved: Cell<ffi::Answer>,
    rust: Cell<Result<u64, parvusek_bench::engine::Refusal>>,
) -> Case<'a> {
    let year = lent.base_year + years;
    case(
        &format!("{name}, {years} years on"),
        move || {
            let (run, history) = lent.bytes();
            done(proved(run, history, black_box(65), year))
        },
        move || {
            let (run, history) = lent.bytes();
            done(rust(run, history, black_box(65), year))
        },
    )
}

fn small_set(lent: Lent) -> Case {
    let ages = [(20, 45), (35, 30), (50, 15), (65, 0), (75, 0), (90, 0)];
    let points = ages.map(|(age, deferment)| Question { age, deferment, year: lent.base_year + 4 });
    let questions = Questions { points };
    let asked = points.map(sets::Question::from);
    case(
        "small set",
        move || {
            let (run, history) = lent.bytes();
            done(ffi::small_set(run, history, questions))
        },
        move || {
            let (run, history) = lent.bytes();
            done(sets::small_set(run, history, black_box(&asked)))
        },
    )
}

fn record(age: u32, deferment: u32, year: u32) -> Record {
    Record { age, deferment, year, refusal: 0, results: [0; 4], first: 0, second: 0 }
}

/// What a record asks, by its place in the grid and the first year that the grid asks about.
type Asked = fn(usize, u32) -> Record;

fn records(lent: Lent, asked: Asked) -> [Record; GRID] {
    std::array::from_fn(|index| asked(index, lent.base_year + 4))
}

/// The benchmark's grid, as in the CMI guide (003, 3.7.3): 17 ages from 20 to 100 by 7 years, both in steps of 5.
fn ages_by_years(index: usize, first_year: u32) -> Record {
    let (year, age) = (index as u32 / 17, index as u32 % 17);
    record(20 + 5 * age, 0, first_year + 5 * year)
}

/// As many ages as there are records, in one year.
fn one_year(index: usize, year: u32) -> Record {
    record(20 + index as u32, 0, year)
}

/// 17 ages from 28 to 60 by the same 7 years, all deferred to 65.
fn deferred(index: usize, first_year: u32) -> Record {
    let (year, age) = (index as u32 / 17, 28 + 2 * (index as u32 % 17));
    record(age, 65 - age, first_year + 5 * year)
}

/// 17 ages from 20 to 52 by 7 years from 2130 back to 2100, whatever the basis: cohorts that are past 2130 in most of
/// their years.
fn young(index: usize, _: u32) -> Record {
    let (year, age) = (index as u32 / 17, index as u32 % 17);
    record(20 + 2 * age, 0, LAST_YEAR - 5 * year)
}

/// A grid by its year sweep, by both engines.
fn grid<'a>(lent: Lent<'a>, name: &str, asked: Asked) -> Case<'a> {
    let mut proved = records(lent, asked);
    let mut own = proved;
    case(
        name,
        move || {
            let (run, history) = lent.bytes();
            done(ffi::grid(run, history, black_box(&mut proved)))
        },
        move || {
            let (run, history) = lent.bytes();
            done(sets::grid(run, history, black_box(&mut own)))
        },
    )
}

/// A grid point by point and by the year sweep, both by the proved archives.
fn two_grids<'a>(lent: Lent<'a>, name: &str, asked: Asked) -> Case<'a> {
    let points = records(lent, asked);
    let mut filled = points;
    case(
        name,
        move || {
            let (run, history) = lent.bytes();
            done(ffi::direct_grid(run, history, black_box(Records { points })))
        },
        move || {
            let (run, history) = lent.bytes();
            done(ffi::grid(run, history, black_box(&mut filled)))
        },
    )
}

fn read<'a>(file: &'a [u8]) -> Case<'a> {
    let (mut lent, mut own) = ([0; Form::Mpb2.run_length()], [0; Form::Mpb2.run_length()]);
    case(
        "reading a file",
        move || done(ffi::read_basis(black_box(file), black_box(&mut lent))),
        move || done(file::read_basis(black_box(file), black_box(&mut own))),
    )
}

fn write<'a>(run: &'a [u8]) -> Case<'a> {
    let (mut lent, mut own) = ([0; Form::Mpb2.file_length()], [0; Form::Mpb2.file_length()]);
    case(
        "writing a file",
        move || done(ffi::write_basis(black_box(run), black_box(&mut lent))),
        move || done(file::write_basis(black_box(run), black_box(&mut own))),
    )
}

fn write_old_form<'a>(run: &'a [u8]) -> Case<'a> {
    let (mut lent, mut own) = ([0; Form::Mpb1.file_length()], [0; Form::Mpb1.file_length()]);
    case(
        "writing one in the old form",
        move || done(ffi::write_old_form(black_box(run), black_box(&mut lent))),
        move || done(file::write_old_form(black_box(run), black_box(&mut own))),
    )
}

fn shorten<'a>(run: &'a [u8]) -> Case<'a> {
    let (mut lent, mut own) = ([0; Form::Mpb2.run_length()], [0; Form::Mpb2.run_length()]);
    case(
        "short form",
        move || done(ffi::short_form(black_box(run), black_box(15_000_000), black_box(&mut lent))),
        move || done(short_form::short_form(black_box(run), black_box(15_000_000), black_box(&mut own))),
    )
}

/// How far from the base year a single cell is asked; such questions end 124 years after the benchmark's, in 2130.
const YEARS_ON: [u32; 3] = [40, 94, 124];

/// The first so many cases are the files' and the single cells'.
const FILES_AND_CELLS: usize = 5 + 2 * YEARS_ON.len();

fn cases<'a>(lent: Lent<'a>, file: &'a [u8]) -> Vec<Case<'a>> {
    let run = lent.run;
    let mut cases = vec![
        case(
            "checking a basis",
            move || done(ffi::check_basis(black_box(run))),
            move || done(enquiries::check_basis(black_box(run))),
        ),
        read(file),
        write(run),
        write_old_form(run),
        shorten(run),
    ];
    cases.extend(YEARS_ON.map(|years| cell(lent, "factor", years, ffi::factor, enquiries::factor)));
    cases.extend(YEARS_ON.map(|years| cell(lent, "rate", years, ffi::rate, enquiries::rate)));
    for age in [20, 65] {
        cases.extend(RESULTS.map(|(which, name)| result(lent, which, name, age)));
    }
    cases.push(result_in(lent, 5, "cohort annuity, age 20 in 2130", 20, LAST_YEAR));
    cases.push(small_set(lent));
    cases.push(grid(lent, "grid, 17 ages by 7 years", ages_by_years));
    cases.push(grid(lent, "grid, ages 20 to 52 past 2130", young));
    cases
}

/// What a history adds: its check to every call, and its years to a factor. The factor of the base year is all check.
fn cases_with_history(lent: Lent) -> Vec<Case> {
    vec![
        cell(lent, "factor", 0, ffi::factor, enquiries::factor),
        cell(lent, "factor", 40, ffi::factor, enquiries::factor),
        cell(lent, "factor", 124, ffi::factor, enquiries::factor),
        result(lent, 4, "period annuity", 65),
        result(lent, 5, "cohort annuity", 65),
        grid(lent, "grid, 17 ages by 7 years", ages_by_years),
    ]
}

/// The benchmark's basis with the longest convergence everywhere, so that every year has two divisions.
fn slow_basis() -> Draft {
    let mut draft = Draft::benchmark();
    for component in [Component::Age, Component::BirthYear] {
        for index in 0..component.entries() {
            draft.set_component(component, index, [20_000_000, 1_000_000], 50, 50);
        }
    }
    draft
}

/// What a table sets against each other: the heading of its ratios, the names of the two, and the digits worth showing.
struct Sides {
    ratio: &'static str,
    names: [&'static str; 2],
    digits: usize,
}

const ENGINES: Sides = Sides { ratio: "proved / Rust", names: ["proved", "Rust"], digits: 2 };
const TWO_GRIDS: Sides = Sides { ratio: "times as fast", names: ["point by point", "sweep"], digits: 1 };

fn print(settings: &Settings, sides: &Sides, name: &str, timing: &Timing) {
    let Timing { first, second, ratio, lower, upper, .. } = timing;
    let Sides { names: [one, other], digits, .. } = sides;
    if settings.markdown {
        println!("| {name} | {ratio:.digits$} | {lower:.digits$} to {upper:.digits$} |");
    } else {
        let quartiles = format!("({lower:.digits$} to {upper:.digits$})");
        println!("{name:<30}{ratio:>7.digits$}  {quartiles:<14}  {one} {first:>12.0} ns   {other} {second:>12.0} ns");
    }
}

fn title(settings: &Settings, sides: &Sides, text: &str) {
    if settings.markdown {
        println!("\n{text}\n\n| work | {} | quartiles |\n|---|---|---|", sides.ratio);
    } else {
        println!("\n{text}");
    }
}

fn main() {
    let settings = settings();
    println!(
        "ratios: {} rounds, the two engines in turn in one process; medians, and quartiles of the rounds' ratios",
        settings.rounds
    );
    let mut worst = 0.0f64;
    let bases = [
        ("convergence over 10 to 40 years", Draft::benchmark()),
        ("the same in the form MPB2", Draft::benchmark().in_form(Form::Mpb2)),
        ("over 50 years", slow_basis()),
    ];
    for (what, draft) in bases {
        let file = files::file_of(&draft.run);
        title(&settings, &ENGINES, &format!("Nothing cleared (caches warm), {what}:"));
        worst = worst.max(warm(&settings, cases(Lent::new(&draft, &[]), &file)));
    }
    for (draft, history) in with_histories() {
        title(&settings, &ENGINES, &format!("Nothing cleared, with a history of {} years:", draft.history_years()));
        worst = worst.max(warm(&settings, cases_with_history(Lent::new(&draft, &history))));
    }
    cold(&settings);
    println!("\nratios: the largest ratio with warm caches is {worst:.2}");
    grids(&settings);
}

/// The benchmark's basis where it needs a history of a few years and of the most, each with that history.
fn with_histories() -> [(Draft, Vec<u8>); 2] {
    [(2006, 2000), (2080, 1992)].map(|(foundation_year, base_year)| {
        let draft = Draft::benchmark_from(foundation_year, base_year);
        let history = histories::benchmark(draft.history_years());
        (draft, history)
    })
}

/// Prints the ratio of each, and hands back the largest.
fn warm(settings: &Settings, cases: Vec<Case>) -> f64 {
    cases.into_iter().fold(0.0, |worst, mut case| {
        let timing = race(settings.rounds, MEASURE, &mut *case.first, &mut *case.second);
        print(settings, &ENGINES, &case.name, &timing);
        timing.ratio.max(worst)
    })
}

/// How much the year sweep saves: its grid against the proved direct one, which answers point by point.
fn grids(settings: &Settings) {
    let (draft, slow, [few, most]) = (Draft::benchmark(), slow_basis(), with_histories());
    let lent = Lent::new(&draft, &[]);
    let cases = [
        two_grids(lent, "17 ages by 7 years", ages_by_years),
        two_grids(Lent::new(&slow, &[]), "the same over 50 years", ages_by_years),
        two_grids(Lent::new(&few.0, &few.1), "the same, history of 6 years", ages_by_years),
        two_grids(Lent::new(&most.0, &most.1), "the same, history of 88 years", ages_by_years),
        two_grids(lent, "ages 20 to 138 in one year", one_year),
        two_grids(lent, "ages 28 to 60 deferred to 65", deferred),
        two_grids(lent, "ages 20 to 52 past 2130", young),
    ];
    title(
        settings,
        &TWO_GRIDS,
        "The proved grid by its year sweep against the proved grid point by point, nothing cleared, convergence over 10 \
         to 40 years:",
    );
    for mut case in cases {
        let timing = race(settings.rounds, MEASURE, &mut *case.first, &mut *case.second);
        print(settings, &TWO_GRIDS, &case.name, &timing);
    }
}

/// A single call after the data caches were filled with other data.
fn cold(settings: &Settings) {
    let draft = Draft::benchmark();
    let file = files::file_of(&draft.run);
    let other = vec![1u8; 64 << 20];
    let clear = || {
        let sum: u64 = other.iter().step_by(64).map(|&byte| u64::from(byte)).sum();
        black_box(sum);
    };
    title(settings, &ENGINES, "Data caches cleared before each call (64 MiB of other data read):");
    for mut case in cases(Lent::new(&draft, &[]), &file).into_iter().take(FILES_AND_CELLS) {
        let timing = race_cold(settings.rounds.min(60), &clear, &mut *case.first, &mut *case.second);
        print(settings, &ENGINES, &case.name, &timing);
    }
}
