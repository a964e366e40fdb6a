//! What is asked: numbers that are mostly in their limits, often at them, and sometimes any 32 bits.
use crate::bases::{Draft, damaged, forms, histories, valid};
use crate::engine::layout::*;
use crate::engine::sets::{Record, Results};
use crate::engine::units::UNIT;
use crate::ffi::{Question, Questions};
use crate::random::Random;

/// A data run and a history to ask about, and the name that the report gives to their kind.
pub struct Basis {
    pub kind: &'static str,
    pub run: Vec<u8>,
    pub history: Vec<u8>,
}

/// A basis of any kind, as it is or damaged in its run, in its history or in both.
pub fn basis(random: &mut Random) -> Basis {
    match random.below(20) {
        0..=3 => accepted(random, "modest"),
        4 | 5 => accepted(random, "anywhere"),
        6 | 7 => accepted(random, "extreme"),
        8 | 9 => accepted(random, "brink"),
        10 | 11 => accepted(random, "uneven"),
        12..=14 => accepted(random, "refused after 2130"),
        15 | 16 => {
            let mut basis = any_accepted(random);
            damaged::damage(random, &mut basis.run);
            if random.one_in(4) {
                histories::damage(random, &mut basis.history);
            }
            Basis { kind: "damaged", ..basis }
        }
        _ => {
            let mut basis = any_accepted(random);
            // of a history that is not needed only the length can be wrong
            while basis.history.is_empty() && !random.one_in(4) {
                basis = any_accepted(random);
            }
            for _ in 0..=random.below(2) {
                histories::damage(random, &mut basis.history);
            }
            Basis { kind: "history damaged", ..basis }
        }
    }
}

fn any_accepted(random: &mut Random) -> Basis {
    let kind = random.pick(&["modest", "anywhere", "extreme"]);
    accepted(random, kind)
}

/// The draft of a kind in either form, with a history of the years that it needs and mostly of its own kind.
fn accepted(random: &mut Random, kind: &'static str) -> Basis {
    let draft = match kind {
        "modest" if random.one_in(16) => Draft::benchmark(),
        "modest" => valid::modest(random),
        "anywhere" => valid::anywhere(random),
        "extreme" => valid::extreme(random),
        "uneven" => valid::uneven(random),
        "refused after 2130" if random.one_in(4) => valid::at_limits(random),
        "refused after 2130" => valid::slow(random),
        _ if random.one_in(4) => valid::fourfold(random),
        _ if random.one_in(3) => valid::edge(random),
        _ => valid::brink(random),
    };
    let draft = forms::in_either_form(random, draft);
    let mut improvements = match kind {
        "modest" | "uneven" | "refused after 2130" => histories::modest,
        "anywhere" => histories::anywhere,
        "extreme" => histories::extreme,
        _ => histories::brink,
    };
    if random.one_in(8) {
        improvements = random.pick(&[histories::modest, histories::anywhere, histories::extreme, histories::brink]);
    }
    let history = improvements(random, draft.history_years());
    Basis { kind, run: draft.run, history }
}

pub fn any_number(random: &mut Random) -> u32 {
    match random.below(3) {
        0 => random.word() as u32,
        1 => random.pick(&[0, 1, u32::MAX, u32::MAX - 149, 1 << 31, i32::MAX as u32, 65_536]),
        _ => (random.word() as u32) >> random.below(32),
    }
}

pub fn age(random: &mut Random) -> u32 {
    match random.below(16) {
        0 => any_number(random),
        1 | 2 => random.pick(&[0, 19, 20, 21, 149, 150, 151]),
        _ => random.between(20, 150) as u32,
    }
}

/// A year near what this run allows.
pub fn year(random: &mut Random, run: &[u8]) -> u32 {
    let (foundation, base) = if run.len() >= 8 { (short(run, 4), short(run, 6)) } else { (2006, 2006) };
    match random.below(16) {
        0 => any_number(random),
        1 => random.pick(&[foundation, foundation + 1, base, base + 1, LAST_YEAR]),
        2 => random.pick(&[foundation.wrapping_sub(1), base.wrapping_sub(1), 2129, 2131]),
        3 => random.between(1980, 2140) as u32,
        4..=6 if base < foundation => random.between(i64::from(base), i64::from(foundation) + 2) as u32,
        7..=11 => {
            // mostly while both components converge, so that each has a remainder
            let years = random.below(50) + 1;
            (foundation.max(base) + random.below(years) as u32).min(LAST_YEAR)
        }
        _ => random.between(i64::from(base.min(2130)), 2130) as u32,
    }
}

pub fn deferment(random: &mut Random, age: u32) -> u32 {
    let left = 150u32.saturating_sub(age);
    match random.below(16) {
        0 => any_number(random),
        1 => left,
        2 => left.wrapping_add(1),
        3 => 0u32.wrapping_sub(age).wrapping_add(random.below(160) as u32),
        4..=8 => random.below(u64::from(left) + 1) as u32,
        _ => 0,
    }
}

/// One in four is about a young life in a late year.
pub fn question(random: &mut Random, run: &[u8]) -> Question {
    if random.one_in(4) {
        return late_question(random, run);
    }
    let age = age(random);
    Question { age, deferment: deferment(random, age), year: year(random, run) }
}

/// A cohort that is past 2130 in most of its years, or a deferment to a year after it.
fn late_question(random: &mut Random, run: &[u8]) -> Question {
    let base = if run.len() >= 8 { short(run, BASE_YEAR) } else { FIRST_YEAR };
    let young = random.between(20, 50) as u32;
    let age = random.pick(&[20, 21, young, young]);
    let year = random.between(i64::from(base.clamp(2100, LAST_YEAR)), i64::from(LAST_YEAR)) as u32;
    let left = LAST_AGE - age;
    let deferment = match random.below(3) {
        0 => 0,
        1 => random.below(u64::from(left) + 1) as u32,
        _ => left - random.below(3) as u32,
    };
    Question { age, deferment, year: random.pick(&[year, year, LAST_YEAR]) }
}

/// The age and the year of a lifeline: as of an enquiry, anywhere after 2130, or about the last birth year.
pub fn position(random: &mut Random, run: &[u8]) -> (u32, u32) {
    let age = age(random);
    let last = LAST_BIRTH_YEAR.wrapping_add(age);
    let year = match random.below(4) {
        0 => last.wrapping_add(random.below(3) as u32).wrapping_sub(1),
        1 if (21..=LAST_AGE).contains(&age) => random.between(i64::from(LAST_YEAR) + 1, i64::from(last)) as u32,
        _ => year(random, run),
    };
    (age, year)
}

pub fn questions(random: &mut Random, run: &[u8]) -> Questions {
    Questions { points: std::array::from_fn(|_| question(random, run)) }
}

/// A record with a question, and with anything in the places of its answer.
pub fn record(random: &mut Random, run: &[u8]) -> Record {
    let Question { age, deferment, year } = question(random, run);
    let results: Results = std::array::from_fn(|_| random.word());
    let (refusal, first, second) = (random.word() as u32, random.word(), random.word());
    Record { age, deferment, year, refusal, results, first, second }
}

pub fn survivors(random: &mut Random) -> u64 {
    match random.below(8) {
        0 => random.word(),
        1 => random.pick(&[0, 1, UNIT - 1, UNIT, UNIT + 1, u64::MAX, 1 << 32, (1 << 63) + 1]),
        _ => random.below(UNIT + 1),
    }
}

pub fn long_term_rate(random: &mut Random) -> i32 {
    match random.below(8) {
        0 => random.word() as i32,
        1 => random.pick(&[-200_000_001, -200_000_000, 200_000_000, 200_000_001, i32::MIN, i32::MAX, 0, -1]),
        _ => random.between(-200_000_000, 200_000_000) as i32,
    }
}

/// The lengths of a run and a file of either form, and those next to them.
pub const LENGTHS: [usize; 12] = [4553, 4554, 4555, 4607, 4608, 4609, 5059, 5060, 5061, 5119, 5120, 5121];

/// The length of a lent output that should have `needed` bytes.
pub fn output_length(random: &mut Random, needed: usize) -> usize {
    match random.below(8) {
        0 => random.below(needed as u64) as usize,
        1 => random.pick(&[0, 1, needed - 1, needed - 1]),
        2 => random.pick(&LENGTHS),
        3..=5 => needed,
        6 => needed + 1,
        _ => needed + random.below(4000) as usize,
    }
}

pub fn records_count(random: &mut Random) -> usize {
    random.pick(&[119, 119, 119, 120, 127, 118, 1, 0])
}

/// Fills bytes that a call may leave or overwrite.
pub fn fill(random: &mut Random, bytes: &mut [u8]) {
    for part in bytes.chunks_mut(8) {
        let drawn = random.word().to_le_bytes();
        part.copy_from_slice(&drawn[..part.len()]);
    }
}

#[cfg(test)]
mod tests {
    use super::*;
    use crate::engine::basis::Basis as Accepted;
    use crate::engine::enquiries::check_question;
    use crate::engine::projection::Component;
    use std::collections::BTreeSet;

    /// Improvements that are asked, and those of which one rounding and two make something else.
    #[derive(Default, Debug)]
    struct Counts {
        asked: u32,
        differing: u32,
        /// Of these, 9 refuses what two roundings make and not what one makes, and the other way round.
        only_two_refused: u32,
        only_one_refused: u32,
    }

    const NOTHING: Component =
        Component { initial_rate: 0, long_term_rate: 0, convergence_period: 1, proportion_remaining: 0 };

    /// A projected improvement by two roundings, where 9 does not refuse it.
    fn by_two_roundings(basis: &Accepted, age: u32, year: u32) -> Option<i64> {
        let years = i64::from(year - basis.foundation_year);
        let components = [basis.age_component(age), basis.birth_year_component(year - age)];
        let [by_age, by_birth_year] = components.map(|component| component.rounded_sum(&NOTHING, years));
        let addition = if years > 0 { basis.constant_addition } else { 0 };
        Some(by_age + by_birth_year + addition).filter(|improvement| IMPROVEMENTS.contains(improvement))
    }

    fn compare(counts: &mut Counts, basis: &Accepted, age: u32, year: u32) {
        let actual = basis.base_year < year && year <= basis.foundation_year;
        let known =
            (FIRST_AGE..=LAST_AGE).contains(&age) && (basis.first_improvement_year()..=LAST_YEAR).contains(&year);
        if actual || !known {
            return;
        }
        let (once, apart) = (basis.improvement(age, year).ok(), by_two_roundings(basis, age, year));
        counts.differing += u32::from(once != apart);
        counts.only_two_refused += u32::from(once.is_some() && apart.is_none());
        counts.only_one_refused += u32::from(once.is_none() && apart.is_some());
    }

    /// The last rate, the end of a lifeline, and what is beyond either by a year.
    #[test]
    fn positions_come_to_the_last_birth_year_and_beyond() {
        let (mut random, run) = (Random::new(1), Draft::plain(2006, 2006).run);
        let met: BTreeSet<(u32, u32)> = (0..20_000).map(|_| position(&mut random, &run)).collect();
        let wanted =
            [(20, 2130), (20, 2131), (21, 2131), (149, 2258), (149, 2259), (149, 2260), (150, 2260), (150, 2261)];
        assert!(wanted.iter().all(|position| met.contains(position)));
        assert!((2131..=2259).all(|year| met.iter().any(|&(age, other)| other == year && year - age < 2110)));
    }

    /// A late question is one that 6, 8 and 7 do not refuse, to the last rate of all.
    #[test]
    fn late_questions_come_to_years_after_2130() {
        let mut random = Random::new(2);
        for base_year in [1992, 2129, 2130] {
            let run = Draft::plain(1992, base_year).run;
            let basis = Accepted::accept(&run, &[]).unwrap();
            let asked: Vec<Question> = (0..2000).map(|_| late_question(&mut random, &run)).collect();
            assert!(asked.iter().all(|asked| check_question(&basis, asked.age, asked.deferment, asked.year).is_ok()));
            let last = Question { age: 20, deferment: 130, year: LAST_YEAR };
            assert!(asked.contains(&last) && asked.contains(&Question { deferment: 0, ..last }));
        }
    }

    #[test]
    fn an_engine_that_rounds_each_component_would_soon_be_found() {
        let mut counts = Counts::default();
        for index in 0..2000 {
            let mut random = Random::case(1, index);
            let Basis { run, history, .. } = basis(&mut random);
            let accepted = Accepted::accept(&run, &history);
            for _ in 0..30 {
                let (age, year) = (age(&mut random), year(&mut random, &run));
                counts.asked += 1;
                if let Ok(basis) = &accepted {
                    compare(&mut counts, basis, age, year);
                }
            }
        }
        assert!(counts.differing * 100 > counts.asked, "{counts:?}");
        assert!(counts.only_two_refused > 0 && counts.only_one_refused > 0, "{counts:?}");
    }
}
