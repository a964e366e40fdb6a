//! What came up of the years after 2130, at which single cells stop and cohorts go on.
use super::report::Function::{self, *};
use crate::engine::layout::{LAST_AGE, LAST_BIRTH_YEAR, LAST_YEAR};
use crate::ffi::{Question, Refusal};
use std::fmt;

/// The functions that can use a rate of such a year.
const REACHING: [Function; 8] =
    [CohortSurvivorship, PeriodExpectation, CohortExpectation, CohortAnnuity, SmallSet, Grid, LifelineStep, RollJoin];

/// What each of them must lead to: an answer that uses such a rate, and 10 that names such a year, soon after 2130 and
/// long after it.
const OUTCOMES: [&str; 3] = ["answered", "10 to 2200", "10 later"];

type Event = (&'static str, fn(Refusal) -> bool);

/// What no call may lead to: the limits of the long-term rates and of the addition sum to those of 9, and no answer needs
/// a birth year after 2110.
const IMPOSSIBLE: [Event; 2] = [
    ("9 in a year after 2130", |refusal| refusal.number == 9 && refusal.second > u64::from(LAST_YEAR)),
    ("9 or 10 of a birth year after 2110", |refusal| {
        matches!(refusal.number, 9 | 10) && refusal.second > refusal.first + u64::from(LAST_BIRTH_YEAR)
    }),
];

/// How often each came up.
#[derive(Clone, Default)]
pub struct Later {
    counts: [[u64; OUTCOMES.len()]; REACHING.len()],
    impossible: [u64; IMPOSSIBLE.len()],
}

impl Later {
    /// A call or a point of a set, and its outcome.
    pub fn note(&mut self, function: Function, question: Question, refusal: Refusal) {
        for (count, (_, is_met)) in self.impossible.iter_mut().zip(IMPOSSIBLE) {
            *count += u64::from(is_met(refusal));
        }
        let Some(place) = REACHING.iter().position(|&reaching| reaching == function) else {
            return;
        };
        let outcome = match refusal {
            Refusal { number: 0, .. } if uses_later_rate(function, question) => 0,
            Refusal { number: 10, second: 2131..=2200, .. } => 1,
            Refusal { number: 10, second: 2201.., .. } => 2,
            _ => return,
        };
        self.counts[place][outcome] += 1;
    }

    pub fn add(&mut self, other: &Later) {
        let counts = self.counts.as_flattened_mut().iter_mut().chain(&mut self.impossible);
        let more = other.counts.as_flattened().iter().chain(&other.impossible);
        counts.zip(more).for_each(|(sum, count)| *sum += count);
    }

    pub fn missing(&self) -> impl Iterator<Item = String> {
        REACHING.iter().zip(self.counts).flat_map(|(function, counts)| {
            let never = OUTCOMES.into_iter().zip(counts).filter(|(_, count)| *count == 0);
            never.map(move |(outcome, _)| format!("after 2130: {function:?} {outcome}"))
        })
    }

    pub fn impossible(&self) -> impl Iterator<Item = String> {
        let met = self.impossible.into_iter().zip(IMPOSSIBLE).filter(|(count, _)| *count > 0);
        met.map(|(count, (what, _))| format!("{count} times {what}"))
    }
}

/// Whether this answer, which was given, uses the rate of a year after 2130.
fn uses_later_rate(function: Function, question: Question) -> bool {
    let Question { age, deferment, year } = question;
    // the year behind that of the last rate
    let end = match function {
        CohortSurvivorship => year + deferment,
        PeriodExpectation | CohortExpectation if age + deferment == LAST_AGE => year,
        PeriodExpectation => year + deferment + 1,
        LifelineStep if age < LAST_AGE => year + 1,
        LifelineStep => year,
        _ => year + LAST_AGE - age,
    };
    end > LAST_YEAR + 1
}

/// A row for each function, a column for each outcome.
impl fmt::Display for Later {
    fn fmt(&self, f: &mut fmt::Formatter) -> fmt::Result {
        let [answered, sooner, later] = OUTCOMES;
        writeln!(f, "{:<20}{answered:>10}{sooner:>12}{later:>12}", "after 2130")?;
        for (function, [answered, sooner, later]) in REACHING.iter().zip(self.counts) {
            writeln!(f, "{:<20}{answered:>10}{sooner:>12}{later:>12}", format!("{function:?}"))?;
        }
        Ok(())
    }
}

#[cfg(test)]
mod tests {
    use super::*;

    const ANSWERED: Refusal = Refusal { number: 0, first: 0, second: 0 };

    fn refused(number: u32, age: u64, year: u64) -> Refusal {
        Refusal { number, first: age, second: year }
    }

    /// The outcomes that this function counts for these questions.
    fn noted(function: Function, asked: &[(u32, u32, u32, Refusal)]) -> Later {
        let mut later = Later::default();
        for &(age, deferment, year, refusal) in asked {
            later.note(function, Question { age, deferment, year }, refusal);
        }
        later
    }

    fn answers(function: Function, asked: &[(u32, u32, u32)]) -> u64 {
        let asked: Vec<_> = asked.iter().map(|&(age, deferment, year)| (age, deferment, year, ANSWERED)).collect();
        noted(function, &asked).counts.as_flattened().iter().sum()
    }

    /// Of each pair only the second uses a rate of 2131 or later.
    #[test]
    fn which_answers_use_a_later_rate() {
        assert_eq!(answers(CohortSurvivorship, &[(20, 1, 2130), (20, 2, 2130)]), 1);
        assert_eq!(answers(CohortSurvivorship, &[(20, 0, 2130), (20, 130, 2002)]), 1);
        assert_eq!(answers(PeriodExpectation, &[(20, 0, 2130), (20, 1, 2130)]), 1);
        assert_eq!(answers(PeriodExpectation, &[(20, 130, 2130), (20, 129, 2130)]), 1);
        assert_eq!(answers(CohortExpectation, &[(149, 0, 2130), (148, 1, 2130)]), 1);
        assert_eq!(answers(CohortExpectation, &[(148, 2, 2130), (148, 0, 2130)]), 1);
        for function in [CohortAnnuity, SmallSet, Grid, RollJoin] {
            assert_eq!(answers(function, &[(149, 0, 2130), (148, 2, 2130), (150, 0, 2130)]), 1);
        }
        assert_eq!(answers(LifelineStep, &[(149, 0, 2130), (149, 0, 2131), (150, 0, 2131)]), 1);
        assert_eq!(answers(PeriodAnnuity, &[(20, 130, 2130)]) + answers(Factor, &[(20, 0, 2130)]), 0);
    }

    #[test]
    fn refusals_are_counted_by_the_year_that_they_name() {
        let asked = [2130, 2131, 2200, 2201, 2259].map(|year| (20, 0, 2130, refused(10, 149, year)));
        assert_eq!(noted(Grid, &asked).counts[5], [0, 2, 2]);
        assert_eq!(noted(Grid, &asked).missing().count(), 3 * REACHING.len() - 2);
        let mut sum = noted(Grid, &asked);
        sum.add(&noted(RollJoin, &asked));
        assert_eq!((sum.counts[5], sum.counts[7]), ([0, 2, 2], [0, 2, 2]));
        assert_eq!(sum.impossible().count(), 0);
    }

    #[test]
    fn what_no_basis_leads_to() {
        let met = |refusal| noted(Factor, &[(60, 0, 2130, refusal)]).impossible;
        assert_eq!([refused(9, 20, 2130), refused(10, 149, 2259)].map(met), [[0, 0]; 2]);
        assert_eq!(met(refused(9, 21, 2131)), [1, 0]);
        assert_eq!(met(refused(10, 149, 2260)), [0, 1]);
        assert_eq!(met(refused(9, 20, 2131)), [1, 1]);
    }
}
