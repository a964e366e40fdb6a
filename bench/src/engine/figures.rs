//! The figures of 01, and the wrong engines that it names.
use super::basis::Basis;
use super::enquiries::*;
use super::layout::{AGES, BIRTH_YEARS, FIRST_BIRTH_YEAR};
use super::refusal::Refusal;
use super::units::UNIT;
use super::valuation::Kind;
use crate::bases::Draft;
use crate::bases::draft::Component::{Age, BirthYear};

/// The history of a basis that needs none.
const NONE: &[u8] = &[];

/// Initial and long-term rate, T and P of a component.
pub(super) type Terms = ([i32; 2], u8, u8);

const ZERO: Terms = ([0, 0], 20, 50);

/// The improvement at age 60 so many years after F, with these terms by age and by birth year.
pub(super) fn improvement_of(by_age: Terms, by_birth_year: Terms, addition: i32, years: u32) -> Result<i64, Refusal> {
    let mut draft = Draft::plain(2006, 2006);
    draft.set_addition(addition);
    let (age, year) = (60, 2006 + years);
    let born = (year - age - FIRST_BIRTH_YEAR) as usize;
    for (component, index, (rates, period, proportion)) in [(Age, 40, by_age), (BirthYear, born, by_birth_year)] {
        draft.set_component(component, index, rates, period, proportion);
    }
    improvement(&draft.run, NONE, age, year)
}

/// The improvement where the other component is zero, which is the same for either.
pub(super) fn component(terms: Terms, years: u32) -> i64 {
    let by_age = improvement_of(terms, ZERO, 0, years);
    assert_eq!(by_age, improvement_of(ZERO, terms, 0, years));
    by_age.expect("within the limits of 9")
}

#[test]
fn components() {
    let at = |years| component(([20_000_000, 10_000_000], 40, 50), years);
    assert_eq!([0, 10, 20, 40, 41].map(at), [20_000_000, 18_437_500, 15_000_000, 10_000_000, 10_000_000]);
    assert_eq!(component(([20_000_000, 10_000_000], 40, 125), 10), 26_875_000);
    assert_eq!(component(([10_000_000, 0], 3, 50), 1), 7_407_407);
    assert_eq!(component(([1, 0], 2, 50), 1), 1);
    assert_eq!(component(([-1, 0], 2, 50), 1), 0);
}

/// Every age's two rates alike, birth years nothing.
fn level(rate: i32) -> Draft {
    let mut draft = Draft::plain(2006, 2006);
    for index in 0..AGES {
        draft.set_component(Age, index, [rate, rate], 20, 50);
    }
    draft
}

#[test]
fn factors() {
    let draft = level(10_000_000);
    let at = |year| factor(&draft.run, NONE, 60, year).unwrap();
    assert_eq!([2006, 2007, 2008, 2009].map(at), [UNIT, 990_000_000, 980_100_000, 970_299_000]);
}

#[test]
fn a_factor_above_four() {
    let mut draft = level(-200_000_000);
    draft.set_addition(-100_000_000);
    for index in 0..BIRTH_YEARS {
        draft.set_component(BirthYear, index, [-200_000_000; 2], 20, 50);
    }
    let at = |year| factor(&draft.run, NONE, 60, year);
    assert_eq!([2007, 2008, 2009].map(at), [1_500_000_000, 2_250_000_000, 3_375_000_000].map(Ok));
    assert_eq!(at(2010), Err(Refusal::factor(60, 2010)));
    assert_eq!(at(2130), Err(Refusal::factor(60, 2010)));
}

#[test]
fn an_improvement_beyond_its_limits() {
    let mut draft = Draft::plain(2006, 2006);
    draft.set_component(Age, 40, [200_000_000, -200_000_000], 4, 150);
    // 587,500,000, which another component can bring within the limits
    let by_age = ([200_000_000, -200_000_000], 4, 150);
    assert_eq!(improvement_of(by_age, ([-200_000_000; 2], 20, 50), 0, 1), Ok(387_500_000));
    assert_eq!(improvement(&draft.run, NONE, 60, 2006), Ok(200_000_000));
    assert_eq!(improvement(&draft.run, NONE, 60, 2007), Err(Refusal::improvement(60, 2007)));
    assert_eq!(factor(&draft.run, NONE, 60, 2008), Err(Refusal::improvement(60, 2007)));
}

#[test]
fn an_annuity() {
    let mut draft = Draft::plain(2006, 2006);
    draft.set_base_rate(129, 100_000_000);
    draft.set_discount_rate(200_000_000);
    assert_eq!(annuity(&draft.run, NONE, Kind::Period, 149, 0, 2006), Ok(1_750_000_000));
    assert_eq!(annuity(&draft.run, NONE, Kind::Cohort, 149, 0, 2130), Ok(1_750_000_000));
}

/// The discounts are 1,010,101,010 and 1,020,304,051, of which nine tenths and 0.81 are paid; at -1 the first is
/// 1,000,000,001.
#[test]
fn annuities_at_a_rate_below_zero() {
    let mut draft = tenth();
    draft.set_discount_rate(-10_000_000);
    assert_eq!(annuity(&draft.run, NONE, Kind::Period, 149, 0, 2010), Ok(1_909_090_909));
    assert_eq!(annuity(&draft.run, NONE, Kind::Cohort, 148, 0, 2130), Ok(2_735_537_190));
    assert_eq!(annuity(&draft.run, NONE, Kind::Cohort, 148, 1, 2130), Ok(1_735_537_190));
    draft.set_discount_rate(-1);
    assert_eq!(annuity(&draft.run, NONE, Kind::Period, 149, 0, 2010), Ok(1_900_000_001));
}

/// Where nobody dies a payment is the discount itself, and the last one is the greatest that there is.
#[test]
fn the_greatest_discount() {
    let mut draft = Draft::plain(2006, 2006);
    draft.set_discount_rate(-10_000_000);
    for kind in [Kind::Period, Kind::Cohort] {
        assert_eq!(annuity(&draft.run, NONE, kind, 20, 130, 2006), Ok(3_693_386_042));
    }
}

/// The basis of 01's points program.
fn tenth() -> Draft {
    let mut draft = Draft::plain(2006, 2006);
    (0..AGES).for_each(|index| draft.set_base_rate(index, 100_000_000));
    draft
}

#[test]
fn the_points_program() {
    let draft = tenth();
    let basis = Basis::accept(&draft.run, NONE).unwrap();
    let at = |age, deferment| super::sets::point(&basis, super::sets::Question { age, deferment, year: 2010 });
    assert_eq!(at(148, 0), Ok([2_210_000_000, 2_210_000_000, 2_710_000_000, 2_710_000_000]));
    assert_eq!(at(150, 0), Ok([500_000_000, 500_000_000, 1_000_000_000, 1_000_000_000]));
    assert_eq!(at(148, 3), Err(Refusal::deferment(148, 3)));
}

#[test]
fn a_deferred_annuity_starts_at_the_undeferred_age() {
    let draft = tenth();
    assert_eq!(annuity(&draft.run, NONE, Kind::Period, 148, 1, 2010), Ok(1_710_000_000));
    assert_eq!(expectation(&draft.run, NONE, Kind::Period, 148, 1, 2010), Ok(1_400_000_000));
    assert_eq!(survivorship(&draft.run, NONE, Kind::Cohort, 20, 2, 2010), Ok(810_000_000));
}

#[test]
fn the_addition_begins_after_the_foundation_year() {
    let mut draft = tenth();
    draft.set_addition(7);
    assert_eq!([2006, 2007].map(|year| improvement(&draft.run, NONE, 60, year)), [Ok(0), Ok(7)]);
}

#[test]
fn the_factor_belongs_to_the_attained_age() {
    let mut draft = tenth();
    let born = 1950;
    draft.set_component(BirthYear, (born - FIRST_BIRTH_YEAR) as usize, [100_000_000; 2], 20, 50);
    // only the year in which an age meets the birth year moves its factor
    assert_eq!(
        [2009, 2010, 2011].map(|year| factor(&draft.run, NONE, 60, year)),
        [UNIT, 900_000_000, 900_000_000].map(Ok)
    );
    assert_eq!(factor(&draft.run, NONE, 61, 2010), Ok(UNIT));
}
