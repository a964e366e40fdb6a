//! The year sweep: the factors of all ages move on together, a year at a step. A grid is answered from what one sweep
//! leaves behind, so that no factor and no discount is worked out twice.
use super::basis::Basis;
use super::layout::*;
use super::projection::{Component, improved, reduced};
use super::refusal::Refusal;
use super::sets::{Question, Results};
use super::units::{UNIT, product};
use super::valuation::Kind;
use std::ops::Range;

/// The factors of all ages in the year that the sweep has come to.
pub struct Sweep<'lent> {
    basis: Basis<'lent>,
    /// What every step uses again of each age.
    components: [Component; AGES],
    base_rates: [u64; AGES],
    year: u32,
    /// The factor of an age that is not refused.
    factors: [u64; AGES],
    /// Each age's first refusal up to that year.
    refusals: [Option<Refusal>; AGES],
}

fn of_each_age<T>(of: impl Fn(u32) -> T) -> [T; AGES] {
    std::array::from_fn(|index| of(FIRST_AGE + index as u32))
}

impl<'lent> Sweep<'lent> {
    /// In the base year every factor is U.
    pub fn start(basis: Basis<'lent>) -> Self {
        Sweep {
            basis,
            components: of_each_age(|age| basis.age_component(age)),
            base_rates: of_each_age(|age| basis.base_rate(age)),
            year: basis.base_year,
            factors: [UNIT; AGES],
            refusals: [None; AGES],
        }
    }

    pub fn year(&self) -> u32 {
        self.year
    }

    /// An age's factor in the sweep's year, or its first refusal up to then.
    pub fn factor(&self, age: u32) -> Result<u64, Refusal> {
        let index = (age - FIRST_AGE) as usize;
        self.refusals[index].map_or(Ok(self.factors[index]), Err)
    }

    /// Moves on by a year. An age that is refused stays so while the others go on, and one whose birth year would be
    /// after 2110 stands where it is.
    pub fn step(&mut self) {
        self.year += 1;
        let (basis, year) = (self.basis, self.year);
        if year <= basis.foundation_year {
            self.improve(|_, age| basis.actual_improvement(age, year));
        } else if year <= LAST_YEAR {
            // after the foundation year, so with the addition
            let years = i64::from(year - basis.foundation_year);
            self.improve(|by_age, age| {
                by_age.rounded_sum(&basis.birth_year_component(year - age), years) + basis.constant_addition
            });
        } else {
            self.improve(|by_age, age| basis.later_improvement(by_age, age, year));
        }
    }

    /// The ages, counted from the first, whose birth year in the sweep's year is not after 2110.
    fn moving(&self) -> Range<usize> {
        lacking(self.year)..AGES
    }

    /// Takes this improvement into the factor of each age that moves and is not refused, if 9 and 10 allow it.
    #[inline]
    fn improve(&mut self, improvement: impl Fn(&Component, u32) -> i64) {
        for index in self.moving() {
            if self.refusals[index].is_some() {
                continue;
            }
            let age = FIRST_AGE + index as u32;
            let improvement = improvement(&self.components[index], age);
            if !IMPROVEMENTS.contains(&improvement) {
                self.refusals[index] = Some(Refusal::improvement(age, self.year));
            } else if let Some(factor) = improved(self.factors[index], improvement) {
                self.factors[index] = factor;
            } else {
                self.refusals[index] = Some(Refusal::factor(age, self.year));
            }
        }
    }

    /// Of U lives at each age that moves, those that live through the sweep's year.
    fn living(&self) -> impl Iterator<Item = u32> {
        self.moving().map(|index| match self.refusals[index] {
            None => (UNIT - reduced(self.base_rates[index], self.factors[index])) as u32,
            Some(_) => REFUSED,
        })
    }
}

/// In the place of a number of lives, of which there are never more than U.
const REFUSED: u32 = u32::MAX;

/// What a sweep from the base year to 2259 leaves behind.
pub struct Swept {
    base_year: u32,
    /// For each year from the base year and each age that moves in it: of U lives, those that live through it, or
    /// `REFUSED`. It is never more than 107 KB.
    living: Vec<u32>,
    /// Each age's first refusal, which it has in every year from then on.
    refusals: [Option<Refusal>; AGES],
    /// The discounts after 0 to 130 years.
    discounts: [u64; AGES],
}

impl Swept {
    pub fn new(basis: Basis) -> Self {
        let mut sweep = Sweep::start(basis);
        let mut living = Vec::with_capacity(place(basis.base_year, LAST_AGE, LAST_RATE_YEAR) + 1);
        living.extend(sweep.living());
        while sweep.year < LAST_RATE_YEAR {
            sweep.step();
            living.extend(sweep.living());
        }
        Swept { base_year: basis.base_year, living, refusals: sweep.refusals, discounts: discounts(&basis) }
    }

    /// The four results of a question that 6, 8 and 7 do not refuse, or the first refusal on the way to them.
    pub fn point(&self, question: Question) -> Result<Results, Refusal> {
        let Question { age, deferment, year } = question;
        if deferment == 0 {
            // an annuity then uses no other rates than the expectation of its kind, and is never the first to be refused
            let (period_expectation, period_annuity) = self.expectation_and_annuity(Kind::Period, age, year)?;
            let (cohort_expectation, cohort_annuity) = self.expectation_and_annuity(Kind::Cohort, age, year)?;
            return Ok([period_expectation, cohort_expectation, period_annuity, cohort_annuity]);
        }
        Ok([
            self.expectation(Kind::Period, age + deferment, year + deferment)?,
            self.expectation(Kind::Cohort, age + deferment, year + deferment)?,
            self.deferred_annuity(Kind::Period, age, deferment, year)?,
            self.deferred_annuity(Kind::Cohort, age, deferment, year)?,
        ])
    }

    fn expectation_and_annuity(&self, kind: Kind, age: u32, year: u32) -> Result<(u64, u64), Refusal> {
        let (mut expectation, mut annuity) = (UNIT / 2, UNIT);
        self.walk(kind, age, year, |survivors, discount| {
            expectation += survivors;
            annuity += product(discount, survivors);
        })?;
        Ok((expectation, annuity))
    }

    fn expectation(&self, kind: Kind, age: u32, year: u32) -> Result<u64, Refusal> {
        let mut expectation = UNIT / 2;
        self.walk(kind, age, year, |survivors, _| expectation += survivors)?;
        Ok(expectation)
    }

    /// With a deferment of at least 1, so that nothing is paid at the start.
    fn deferred_annuity(&self, kind: Kind, age: u32, deferment: u32, year: u32) -> Result<u64, Refusal> {
        let mut annuity = 0;
        let mut elapsed = 0;
        self.walk(kind, age, year, |survivors, discount| {
            elapsed += 1;
            if elapsed >= deferment {
                annuity += product(discount, survivors);
            }
        })?;
        Ok(annuity)
    }

    /// Takes U lives from an age and a year to age 150, and shows the survivors after each year with its discount.
    #[inline]
    fn walk(&self, kind: Kind, age: u32, year: u32, mut show: impl FnMut(u64, u64)) -> Result<(), Refusal> {
        let mut survivors = UNIT;
        let mut place = place(self.base_year, age, year);
        for ((age, next_year), &discount) in (age..LAST_AGE).zip(year + 1..).zip(&self.discounts[1..]) {
            survivors = product(survivors, self.living_at(place, age)?);
            show(survivors, discount);
            // to the next age, in the same year or in the next
            place += match kind {
                Kind::Period => 1,
                Kind::Cohort => AGES + 1 - lacking(next_year),
            };
        }
        Ok(())
    }

    #[inline]
    fn living_at(&self, place: usize, age: u32) -> Result<u64, Refusal> {
        let living = self.living[place];
        if living == REFUSED {
            return Err(self.refusals[(age - FIRST_AGE) as usize].expect("where this stands the age was refused"));
        }
        Ok(u64::from(living))
    }
}

/// How many ages a year lacks, since their birth year would be after 2110: until 2130 none, 2131 one, 2132 two ...
#[inline]
fn lacking(year: u32) -> usize {
    year.saturating_sub(LAST_YEAR) as usize
}

/// Where an age stands in the years from the base year on.
fn place(base_year: u32, age: u32, year: u32) -> usize {
    // those that this year and the later ones before it lack
    let lacking = lacking(year) * (lacking(year) + 1) / 2;
    AGES * (year - base_year) as usize + (age - FIRST_AGE) as usize - lacking
}

fn discounts(basis: &Basis) -> [u64; AGES] {
    let mut discounts = [UNIT; AGES];
    for years in 1..AGES {
        discounts[years] = basis.discounted(discounts[years - 1]);
    }
    discounts
}
