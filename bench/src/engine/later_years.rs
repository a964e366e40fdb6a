//! Years after 2130, which only cohorts and deferred lives come to: figures worked by hand, the rule written out once
//! more, the last rate of all, and refusals.
use super::basis::Basis;
use super::enquiries::*;
use super::layout::*;
use super::lifeline::{self, Position, Step};
use super::refusal::Refusal;
use super::sets::{GRID, Question, Record, grid, point, small_set};
use super::units::UNIT;
use super::valuation::Kind;
use crate::bases::draft::Component::{Age, BirthYear};
use crate::bases::{Draft, histories, valid};
use crate::random::Random;

/// The history of a basis that needs none.
const NONE: &[u8] = &[];

/// F 2080 and B 2130, every T 50, so that every convergence ends in 2130. Initial rates that no later year may use,
/// long-term rates by age and by birth year, an addition, and base rates of 100,000,000.
fn from_2130(by_age: i32, by_birth_year: i32, addition: i32) -> Draft {
    let mut draft = Draft::plain(2080, 2130);
    draft.set_addition(addition);
    for index in 0..AGES {
        draft.set_base_rate(index, 100_000_000);
        draft.set_component(Age, index, [-200_000_000, by_age], 50, 150);
    }
    (0..BIRTH_YEARS).for_each(|index| draft.set_component(BirthYear, index, [200_000_000, by_birth_year], 50, 150));
    draft
}

/// One per cent a year, of all three.
fn one_per_cent() -> Draft {
    from_2130(6_000_000, 3_000_000, 1_000_000)
}

// ---- figures

/// 01's factors of an improvement of 10,000,000 thrice, in 2131 to 2133.
#[test]
fn factors() {
    let draft = one_per_cent();
    let basis = Basis::accept(&draft.run, NONE).unwrap();
    let at = |year| basis.factor(60, year);
    assert_eq!([2130, 2131, 2132, 2133].map(at), [UNIT, 990_000_000, 980_100_000, 970_299_000].map(Ok));
    assert_eq!([2131, 2132].map(|year| basis.rate(60, year)), [99_000_000, 98_010_000].map(Ok));
}

/// From 2130 on a cohort meets 100,000,000, 99,000,000 and 98,010,000, which leave 0.9, 0.9 x 0.901 and
/// 0.8109 x 0.90199.
#[test]
fn a_cohort_meets_the_later_rates() {
    let run = one_per_cent().run;
    let after = |kind, years| survivorship(&run, NONE, kind, 20, years, 2130);
    assert_eq!(
        [0, 1, 2, 3].map(|years| after(Kind::Cohort, years)),
        [UNIT, 900_000_000, 810_900_000, 731_423_691].map(Ok)
    );
    assert_eq!([1, 2, 3].map(|years| after(Kind::Period, years)), [900_000_000, 810_000_000, 729_000_000].map(Ok));
    let (one, two, three) = (900_000_000, 810_900_000, 731_423_691);
    assert_eq!(expectation(&run, NONE, Kind::Cohort, 147, 0, 2130), Ok(UNIT / 2 + one + two + three));
    assert_eq!(annuity(&run, NONE, Kind::Cohort, 147, 0, 2130), Ok(UNIT + one + two + three));
    assert_eq!(annuity(&run, NONE, Kind::Cohort, 147, 2, 2130), Ok(two + three));
}

/// One year deferred, an expectation starts at 148 in 2131: the period's rates are 99,000,000 both, the cohort's second
/// one is 98,010,000. The period annuity stays in 2130.
#[test]
fn a_deferred_expectation_takes_the_later_factor_of_either_kind() {
    let run = one_per_cent().run;
    let period = UNIT / 2 + 901_000_000 + 811_801_000;
    let cohort = UNIT / 2 + 901_000_000 + 812_692_990;
    assert_eq!(expectation(&run, NONE, Kind::Period, 147, 1, 2130), Ok(period));
    assert_eq!(expectation(&run, NONE, Kind::Cohort, 147, 1, 2130), Ok(cohort));
    let annuities = [900_000_000 + 810_000_000 + 729_000_000, 900_000_000 + 810_900_000 + 731_423_691];
    let results = [period, cohort, annuities[0], annuities[1]];
    let question = Question { age: 147, deferment: 1, year: 2130 };
    assert_eq!(small_set(&run, NONE, &[question; 6]), Ok([Ok(results); 6]));
    let blank = Record { age: 147, deferment: 1, year: 2130, refusal: 9, results: [1; 4], first: 1, second: 1 };
    let mut records = [blank; GRID];
    assert_eq!(grid(&run, NONE, &mut records), Ok(()));
    assert_eq!(records[GRID - 1], Record { refusal: 0, results, first: 0, second: 0, ..blank });
}

/// A birth year's rate is used once at each age: only the year in which an age meets it moves the factor.
#[test]
fn the_birth_year_goes_on_by_the_attained_age() {
    let mut draft = from_2130(0, 0, 0);
    draft.set_component(BirthYear, (2075 - FIRST_BIRTH_YEAR) as usize, [0, 100_000_000], 20, 50);
    let basis = Basis::accept(&draft.run, NONE).unwrap();
    let at = |age, year| basis.factor(age, year).unwrap();
    assert_eq!([2134, 2135, 2136, 2170].map(|year| at(60, year)), [UNIT, 900_000_000, 900_000_000, 900_000_000]);
    assert_eq!([2135, 2136].map(|year| at(61, year)), [UNIT, 900_000_000]);
}

// ---- the rule

/// A number of a run of the old form, by 01's offsets.
fn number(draft: &Draft, table: usize, index: u32) -> i128 {
    let place = table + 4 * index as usize;
    i128::from(i32::from_le_bytes(draft.run[place..place + 4].try_into().unwrap()))
}

/// The factor after a year after 2130: L by age at 1078, L by birth year at 2940, and the addition at 8.
fn a_year_on(draft: &Draft, factor: u64, age: u32, year: u32) -> Result<u64, Refusal> {
    let improvement = number(draft, 1078, age - 20) + number(draft, 2940, year - age - 1842) + number(draft, 8, 0);
    let product = i128::from(factor) * (1_000_000_000 - improvement);
    let factor = (2 * product + 1_000_000_000).div_euclid(2_000_000_000) as u64;
    if factor > 4_000_000_000 {
        Err(Refusal { number: 10, first: age.into(), second: year.into() })
    } else {
        Ok(factor)
    }
}

/// Every age in every year after 2130 while its birth year is not after 2110.
fn follows_the_rule(draft: &Draft, history: &[u8]) {
    let basis = Basis::accept(&draft.run, history).unwrap();
    for age in 20..=150 {
        let mut wanted = basis.factor(age, 2130);
        for year in 2131..=2110 + age {
            wanted = wanted.and_then(|factor| a_year_on(draft, factor, age, year));
            assert_eq!(basis.factor(age, year), wanted, "age {age} in {year}");
        }
    }
}

#[test]
fn each_later_year_takes_the_long_term_rates_and_the_addition() {
    follows_the_rule(&one_per_cent(), NONE);
    let mut random = Random::new(1);
    for kind in [valid::modest, valid::anywhere, valid::uneven, valid::slow, valid::at_limits] {
        for _ in 0..3 {
            let draft = kind(&mut random);
            follows_the_rule(&draft, &histories::modest(&mut random, draft.history_years()));
        }
    }
    let older = Draft::benchmark_from(2080, 1992);
    follows_the_rule(&older, &histories::benchmark(88));
}

/// By 2130 every convergence is over, so that the projection's own rule says the same and nothing jumps.
#[test]
fn the_projection_s_rule_comes_to_the_same() {
    let mut random = Random::new(2);
    for kind in [valid::modest, valid::extreme, valid::at_limits] {
        for foundation_year in [1992, 2006, 2079, 2080] {
            let mut draft = kind(&mut random);
            draft.set_years(foundation_year, foundation_year);
            let basis = Basis::accept(&draft.run, NONE).unwrap();
            for age in 20..=150 {
                for year in 2130..=2110 + age {
                    let later = basis.later_improvement(&basis.age_component(age), age, year);
                    assert_eq!(basis.improvement(age, year), Ok(later), "age {age} in {year}");
                }
            }
        }
    }
}

// ---- the last rate

/// Everything happens in the birth year 2110, whose rate is the last that each age meets, and at age 149.
fn the_last_birth_year() -> Draft {
    let mut draft = Draft::plain(2006, 2130);
    draft.set_component(BirthYear, BIRTH_YEARS - 1, [0, 100_000_000], 20, 50);
    draft.set_base_rate(129, 500_000_000);
    draft.set_base_rate(130, 1_000_000_000);
    draft
}

#[test]
fn the_last_rate_is_at_149_in_2259() {
    let run = the_last_birth_year().run;
    // 20 in 2130 is 149 in 2259, and 21 a year earlier
    assert_eq!(survivorship(&run, NONE, Kind::Cohort, 20, 130, 2130), Ok(550_000_000));
    assert_eq!(survivorship(&run, NONE, Kind::Cohort, 21, 129, 2130), Ok(500_000_000));
    assert_eq!(survivorship(&run, NONE, Kind::Cohort, 20, 129, 2130), Ok(UNIT));
    assert_eq!(expectation(&run, NONE, Kind::Cohort, 20, 129, 2130), Ok(UNIT / 2 + 550_000_000));
    assert_eq!(expectation(&run, NONE, Kind::Period, 20, 129, 2130), Ok(UNIT / 2 + 550_000_000));
    assert_eq!(expectation(&run, NONE, Kind::Period, 20, 130, 2130), Ok(UNIT / 2));
    assert_eq!(annuity(&run, NONE, Kind::Cohort, 20, 130, 2130), Ok(550_000_000));
    assert_eq!(annuity(&run, NONE, Kind::Period, 20, 130, 2130), Ok(500_000_000));
}

/// Also by the grid, whose table ends there.
#[test]
fn the_grid_has_the_last_rate() {
    let run = the_last_birth_year().run;
    let basis = Basis::accept(&run, NONE).unwrap();
    let blank = Record { age: 20, deferment: 0, year: 2130, refusal: 9, results: [1; 4], first: 1, second: 1 };
    // deferred by 12 to 130 years
    let mut records: Vec<Record> = (12..=130).map(|deferment| Record { deferment, ..blank }).collect();
    assert_eq!(grid(&run, NONE, &mut records), Ok(()));
    for record in &records {
        let question = Question { age: 20, deferment: record.deferment, year: 2130 };
        assert_eq!((Ok(record.results), record.refusal), (point(&basis, question), 0));
    }
    let last = [129, 130].map(|deferment| records[deferment - 12].results);
    assert_eq!(last[0], [1_050_000_000, 1_050_000_000, 1_500_000_000, 1_550_000_000]);
    assert_eq!(last[1], [500_000_000, 500_000_000, 500_000_000, 550_000_000]);
}

#[test]
fn a_lifeline_steps_through_2259_and_ends_at_150() {
    for draft in [the_last_birth_year(), one_per_cent()] {
        let mut position = lifeline::start(&draft.run, NONE, 20, 2130).unwrap();
        for years in 1..=130 {
            let survivors = survivorship(&draft.run, NONE, Kind::Cohort, 20, years, 2130).unwrap();
            let next = Position { age: 20 + years, year: 2130 + years, survivors };
            assert_eq!(lifeline::step(&draft.run, NONE, position), Ok(Step::On(next)));
            position = next;
        }
        assert_eq!((position.age, position.year), (150, 2260));
        assert_eq!(lifeline::step(&draft.run, NONE, position), Ok(Step::Ended));
    }
}

// ---- refusals

#[test]
fn single_cells_stop_at_2130() {
    let run = one_per_cent().run;
    assert_eq!(improvement(&run, NONE, 60, 2130), Ok(10_000_000));
    assert_eq!([factor, rate].map(|ask| ask(&run, NONE, 60, 2130)), [Ok(UNIT), Ok(100_000_000)]);
    for year in [2131, 2170, 2259, 2260] {
        let refused = Refusal::year(year);
        assert_eq!(improvement(&run, NONE, 150, year), Err(refused));
        assert_eq!([factor, rate].map(|ask| ask(&run, NONE, 150, year)), [Err(refused); 2]);
        for ask in [survivorship, expectation, annuity] {
            assert_eq!([Kind::Period, Kind::Cohort].map(|kind| ask(&run, NONE, kind, 149, 0, year)), [Err(refused); 2]);
        }
        assert_eq!(lifeline::start(&run, NONE, 149, year), Err(refused));
    }
}

/// 1.2 per cent worse each year at 149: 3,989,692,745 in 2246, and 4,037,569,058 in 2247.
#[test]
fn a_factor_above_four_in_the_2200s() {
    let mut draft = from_2130(0, 0, 0);
    draft.set_component(Age, 129, [0, -12_000_000], 50, 50);
    let run = &draft.run;
    let refused = Refusal::factor(149, 2247);
    let basis = Basis::accept(run, NONE).unwrap();
    assert_eq!([2246, 2247, 2259].map(|year| basis.factor(149, year)), [Ok(3_989_692_745), Err(refused), Err(refused)]);
    // 33 in 2130 is 149 in 2246, and 32 a year later
    let after = |age, years| survivorship(run, NONE, Kind::Cohort, age, years, 2130).err();
    assert_eq!(
        [after(33, 117), after(32, 117), after(32, 118), after(20, 130)],
        [None, None, Some(refused), Some(refused)]
    );
    for ask in [expectation, annuity] {
        assert!(ask(run, NONE, Kind::Cohort, 33, 0, 2130).is_ok() && ask(run, NONE, Kind::Period, 20, 0, 2130).is_ok());
        assert_eq!([20, 32].map(|age| ask(run, NONE, Kind::Cohort, age, 0, 2130)), [Err(refused); 2]);
    }
    // deferred to 149 in 2246 and in 2247, of the period kind too
    assert_eq!(expectation(run, NONE, Kind::Period, 32, 117, 2130), Err(refused));
    assert!(expectation(run, NONE, Kind::Period, 33, 116, 2130).is_ok());
    let step = |year| lifeline::step(run, NONE, Position { age: 149, year, survivors: UNIT });
    assert_eq!([step(2247), step(2259)], [Err(refused); 2]);
    // of a rate of 398,969,274.5, which goes up
    assert_eq!(step(2246), Ok(Step::On(Position { age: 150, year: 2247, survivors: 601_030_725 })));
}

/// The limits of the three rates sum to those of 9: worsening, 01's factors to 3.375 and then 10; improving, halves.
#[test]
fn no_9_after_2130() {
    let run = from_2130(-200_000_000, -200_000_000, -100_000_000).run;
    let basis = Basis::accept(&run, NONE).unwrap();
    let at = |year| basis.factor(60, year);
    assert_eq!([2131, 2132, 2133].map(at), [1_500_000_000, 2_250_000_000, 3_375_000_000].map(Ok));
    assert_eq!([2134, 2135, 2170].map(at), [Err(Refusal::factor(60, 2134)); 3]);
    let run = from_2130(200_000_000, 200_000_000, 100_000_000).run;
    let basis = Basis::accept(&run, NONE).unwrap();
    let at = |year| basis.factor(149, year);
    assert_eq!([2131, 2132, 2160, 2161, 2259].map(at), [500_000_000, 250_000_000, 1, 1, 1].map(Ok));
}

/// 1.25, 1.25 and 1.28, in whichever order an age meets the birth years: after six years exactly 4 U stands, and a year
/// later more does not.
#[test]
fn exactly_four_stands_after_2130() {
    let mut draft = from_2130(-200_000_000, -50_000_000, 0);
    for index in (0..BIRTH_YEARS).step_by(3) {
        draft.set_component(BirthYear, index, [0, -80_000_000], 1, 50);
    }
    let basis = Basis::accept(&draft.run, NONE).unwrap();
    assert!((26..=150).all(|age| basis.factor(age, 2136) == Ok(4 * UNIT)));
    assert!((27..=150).all(|age| basis.factor(age, 2137) == Err(Refusal::factor(age, 2137))));
}

/// Whatever the basis, a 9 names a year up to 2130, and a 9 or a 10 no birth year after 2110.
#[test]
fn what_is_named_is_within_the_table() {
    let mut random = Random::new(3);
    let mut met = [0; 3];
    for kind in [valid::extreme, valid::brink, valid::edge, valid::fourfold, valid::at_limits, valid::slow] {
        for _ in 0..20 {
            let draft = kind(&mut random);
            let history = histories::brink(&mut random, draft.history_years());
            let basis = Basis::accept(&draft.run, &history).unwrap();
            for age in 20..=150 {
                if let Err(Refusal { number, first, second: year }) = basis.factor(age, 2110 + age) {
                    assert!(first == u64::from(age) && year - first <= 2110);
                    assert!(number == 10 || number == 9 && year <= 2130, "{number} in {year}");
                    let place = match (number, year) {
                        (9, _) => 0,
                        (_, ..=2130) => 1,
                        _ => 2,
                    };
                    met[place] += 1;
                }
            }
        }
    }
    assert!(met.iter().all(|&count| count > 100), "{met:?}");
}
