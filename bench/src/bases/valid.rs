//! Accepted data runs at random, in the old form: of modest size, anywhere in the limits, at the limits, and such whose
//! refusals come after 2130.
use super::draft::{Component, Draft};
use crate::engine::layout::*;
use crate::random::Random;

/// A year pair in the limits, the base year often the foundation year or near it, on either side.
fn years(random: &mut Random) -> (u16, u16) {
    let foundation = match random.below(4) {
        0 => random.pick(&[1992, 1993, 2079, 2080]),
        _ => random.between(1992, 2080),
    };
    let base = match random.below(6) {
        0 => foundation,
        1 => random.between(foundation, (foundation + 10).min(2130)),
        2 => random.pick(&[2129, 2130, foundation + 1]).max(foundation),
        3 => random.between(foundation, 2130),
        _ => before(random, foundation),
    };
    (foundation as u16, base as u16)
}

/// A base year before the foundation year, mostly by a few years.
fn before(random: &mut Random, foundation: i64) -> i64 {
    match random.below(16) {
        0 => 1992,
        1 => random.between(1992, foundation),
        2 => foundation - 1,
        _ => foundation - random.between(1, 10),
    }
    .max(1992)
}

/// A number of either sign and of any order of magnitude up to `limit`.
pub fn of_any_size(random: &mut Random, limit: i64) -> i32 {
    let size = (limit >> random.below(29)).max(1);
    random.between(-size, size) as i32
}

/// Fields that a real basis could have, so that most enquiries are answered.
pub fn modest(random: &mut Random) -> Draft {
    let spread = random.pick(&[1, 1_000, 1_000_000, 30_000_000, 60_000_000]);
    of_spread(random, spread)
}

/// The same with improvement rates and an addition no further than this from 0.
fn of_spread(random: &mut Random, spread: i64) -> Draft {
    let (foundation, base) = years(random);
    let mut draft = Draft::plain(foundation, base);
    draft.set_addition(random.between(-spread, spread) as i32);
    let greatest = random.between(-10_000_000, 200_000_000) as i32;
    draft.set_discount_rate(random.pick(&[-10_000_000, -1, 0, 1, 30_000_000, 200_000_000]).min(greatest));
    let growth = random.between(1_000, 1_150) as f64 / 1_000.0;
    let mut rate = random.between(0, 100_000_000) as f64;
    for index in 0..AGES {
        draft.set_base_rate(index, rate.min(1e9) as i32);
        rate *= growth;
    }
    components(random, &mut draft, |random| {
        let rates = [random.between(-spread, spread) as i32, random.between(-spread, spread) as i32];
        (rates, random.between(1, 50) as u8, random.between(0, 100) as u8)
    });
    draft
}

/// Every field anywhere in its limits, of any order of magnitude.
pub fn anywhere(random: &mut Random) -> Draft {
    let (foundation, base) = years(random);
    let mut draft = Draft::plain(foundation, base);
    draft.set_addition(of_any_size(random, 100_000_000));
    draft.set_discount_rate(of_any_size(random, 200_000_000).max(-10_000_000));
    for index in 0..AGES {
        let rate = of_any_size(random, 1_000_000_000).abs();
        draft.set_base_rate(index, rate);
    }
    let limit = 200_000_000 >> random.below(8);
    components(random, &mut draft, |random| {
        let rates = [of_any_size(random, limit), of_any_size(random, limit)];
        (rates, random.between(1, 50) as u8, random.between(0, 150) as u8)
    });
    draft
}

/// Every field at or next to a limit, or 0.
pub fn extreme(random: &mut Random) -> Draft {
    const RATES: [i32; 7] = [-200_000_000, -199_999_999, -1, 0, 1, 199_999_999, 200_000_000];
    let (foundation, base) = years(random);
    let mut draft = Draft::plain(foundation, base);
    draft.set_addition(random.pick(&[-100_000_000, -99_999_999, -1, 0, 1, 99_999_999, 100_000_000]));
    draft.set_discount_rate(random.pick(&[-10_000_000, -9_999_999, -1, 0, 1, 199_999_999, 200_000_000]));
    for index in 0..AGES {
        draft.set_base_rate(index, random.pick(&[0, 1, 499_999_999, 500_000_000, 999_999_999, 1_000_000_000]));
    }
    // the same pair for many entries, so that whole stretches stay within the limits of an improvement
    let common = [random.pick(&RATES), random.pick(&RATES)];
    let mixed = random.one_in(2);
    components(random, &mut draft, |random| {
        let rates = if mixed && random.one_in(8) { [random.pick(&RATES), random.pick(&RATES)] } else { common };
        (rates, random.pick(&[1, 2, 3, 49, 50]), random.pick(&[0, 1, 25, 50, 100, 149, 150]))
    });
    draft
}

/// Improvements of exactly or nearly ±500,000,000 and factors of nearly 4 U.
pub fn brink(random: &mut Random) -> Draft {
    let (foundation, base) = years(random);
    let mut draft = Draft::plain(foundation, base);
    let sign = random.pick(&[-1, 1]);
    let part = random.pick(&[200_000_000, 199_999_999, 100_000_000, 29_000_000, 11_000_000]) * sign;
    draft.set_addition(random.pick(&[100_000_000, 99_999_999, 0]) * sign);
    draft.set_discount_rate(random.between(-10_000_000, 200_000_000) as i32);
    for index in 0..AGES {
        draft.set_base_rate(index, random.pick(&[0, 1, 250_000_000, 1_000_000_000]));
    }
    components(random, &mut draft, |random| {
        let nudge = random.between(-1, 1) as i32 * i32::from(random.one_in(4));
        let near = (part + nudge).clamp(-200_000_000, 200_000_000);
        // now and then far from its long-term rate, so that it overshoots where much remains at half way
        let initial = if random.one_in(64) { -near } else { near };
        ([initial, part], random.between(1, 50) as u8, random.between(0, 150) as u8)
    });
    draft
}

/// Improvements within two units of ±500,000,000 in every year after the foundation year: a unit lies between the two
/// rates of a component, and the remainders decide whether 9 refuses.
pub fn edge(random: &mut Random) -> Draft {
    let (foundation, base) = years(random);
    let mut draft = Draft::plain(foundation, base);
    let sign = random.pick(&[-1, 1]);
    draft.set_addition(100_000_000 * sign);
    (0..AGES).for_each(|index| draft.set_base_rate(index, random.between(0, 1_000_000_000) as i32));
    components(random, &mut draft, |random| {
        let rates = [200_000_000 * sign, 199_999_999 * sign];
        (rates, random.between(1, 50) as u8, random.between(50, 150) as u8)
    });
    draft
}

/// Factors that double every three years, to exactly 4 U after six, or to a little beside it; as often as not these are
/// years about 2130.
pub fn fourfold(random: &mut Random) -> Draft {
    let foundation = random.between(1992, 2080) as u16;
    let late = random.between(2124, 2130) as u16;
    let mut draft = Draft::plain(foundation, random.pick(&[foundation, late]));
    draft.set_addition(random.pick(&[0, 0, -1, 1]));
    for index in 0..AGES {
        draft.set_base_rate(index, random.between(0, 1_000_000_000) as i32);
        draft.set_component(Component::Age, index, [-200_000_000; 2], 1, 50);
    }
    // 1.25, 1.25 and 1.28, in whichever order an age meets the birth years
    for index in 0..BIRTH_YEARS {
        let rate = if index % 3 == 0 { -80_000_000 } else { -50_000_000 };
        draft.set_component(Component::BirthYear, index, [rate; 2], 1, 50);
    }
    draft
}

/// As a real basis, but for a few ages that are refused, each from a year of its own on: their factors come to 4 U after
/// some 8 to 94 years, or their improvements overshoot.
pub fn uneven(random: &mut Random) -> Draft {
    let mut draft = modest(random);
    for _ in 0..=random.below(6) {
        let index = random.below(AGES as u64) as usize;
        if random.one_in(2) {
            let rate = -random.pick(&[15_000_000, 30_000_000, 60_000_000, 200_000_000]);
            draft.set_component(Component::Age, index, [rate; 2], 20, 50);
        } else {
            // where 135 per cent remain at half way 180 do before it, and 175 make an improvement of 500,000,000
            let (period, proportion) = (random.between(3, 50) as u8, random.between(135, 150) as u8);
            draft.set_component(Component::Age, index, [200_000_000, -200_000_000], period, proportion);
        }
    }
    draft
}

/// As a real basis whose factors hardly move, but for a few ages whose mortality worsens so slowly that they come to 4 U
/// after 2130: all of them soon after it, all of them long after it, or each in any year.
pub fn slow(random: &mut Random) -> Draft {
    let spread = random.pick(&[1, 1_000, 1_000_000]);
    let mut draft = of_spread(random, spread);
    let (first, last) = random.pick(&[(2131, 2140), (2201, 2259), (2201, 2259), (2131, 2259)]);
    for _ in 0..=random.below(12) {
        let year = random.between(first, last);
        // whose birth year is then not after 2110
        let age = random.between(year - i64::from(LAST_BIRTH_YEAR), 149);
        worsen(&mut draft, age as u32, year as u32);
    }
    draft
}

/// Makes the factor of an age pass 4 U in about this year after 2130; where that is too soon, in the eighth year.
fn worsen(draft: &mut Draft, age: u32, year: u32) {
    let years = f64::from(year - short(&draft.run, BASE_YEAR));
    let growth = 4f64.powf(1.0 / (years - 0.5)) - 1.0;
    // what the addition does is made up for
    let rate = (-1e9 * growth - f64::from(signed(&draft.run, CONSTANT_ADDITION))).max(-2e8) as i32;
    draft.set_component(Component::Age, (age - FIRST_AGE) as usize, [rate; 2], 20, 50);
}

/// Improvements of exactly ±500,000,000 in every year after 2130, or a unit within it. The base year is mostly about
/// 2130, so that the factors are neither 0 nor beyond 4 U before it.
pub fn at_limits(random: &mut Random) -> Draft {
    let (foundation, base) = years(random);
    let late = random.between(2120, 2130) as u16;
    let base = random.pick(&[2130, 2130, late, base]);
    let mut draft = Draft::plain(foundation, base);
    let sign = random.pick(&[-1, 1]);
    draft.set_addition(100_000_000 * sign);
    draft.set_discount_rate(random.between(-10_000_000, 200_000_000) as i32);
    (0..AGES).for_each(|index| draft.set_base_rate(index, random.between(0, 1_000_000_000) as i32));
    components(random, &mut draft, |random| {
        let long_term = (200_000_000 - i32::from(random.one_in(16))) * sign;
        let initial = if random.one_in(4) { of_any_size(random, 200_000_000) } else { long_term };
        ([initial, long_term], random.between(1, 50) as u8, random.between(0, 150) as u8)
    });
    draft
}

fn components(random: &mut Random, draft: &mut Draft, mut terms: impl FnMut(&mut Random) -> ([i32; 2], u8, u8)) {
    for component in [Component::Age, Component::BirthYear] {
        for index in 0..component.entries() {
            let (rates, period, proportion) = terms(random);
            draft.set_component(component, index, rates, period, proportion);
        }
    }
}

#[cfg(test)]
mod tests {
    use super::*;
    use crate::bases::histories::{MOST_YEARS, history_of};
    use crate::engine::basis::Basis;
    use crate::engine::run::Run;
    use std::ops::RangeInclusive;

    #[test]
    fn all_are_accepted_and_every_kind_has_discounts_below_zero() {
        let mut random = Random::new(1);
        for kind in [modest, anywhere, extreme, brink, uneven, slow, at_limits] {
            let runs: Vec<Vec<u8>> = (0..200).map(|_| kind(&mut random).run).collect();
            let rates =
                runs.iter().map(|run| signed(Run::accept(run).expect("within its limits").bytes, DISCOUNT_RATE));
            let below = rates.filter(|&rate| rate < 0).count();
            assert!((1..200).contains(&below), "{below} of 200");
        }
        for kind in [edge, fourfold] {
            assert!(Run::accept(&kind(&mut random).run).is_ok());
        }
    }

    /// Each age's refusal in the last year that an answer can need, of many drafts: its number and its year.
    fn last_refusals(kind: fn(&mut Random) -> Draft) -> Vec<Option<(u32, u64)>> {
        let mut random = Random::new(1);
        let mut refusals = Vec::new();
        for _ in 0..100 {
            let draft = kind(&mut random);
            let history = history_of(draft.history_years(), |_, _| 0);
            let basis = Basis::accept(&draft.run, &history).expect("within its limits");
            refusals.extend((FIRST_AGE..LAST_AGE).map(|age| {
                let refused = basis.factor(age, LAST_BIRTH_YEAR + age).err();
                refused.map(|refusal| (refusal.number, refusal.second))
            }));
        }
        refusals
    }

    #[test]
    fn slow_ages_come_to_4_soon_after_2130_and_as_late_as_2259() {
        let refusals = last_refusals(slow);
        let among = |years: RangeInclusive<u64>| {
            refusals.iter().flatten().filter(|(number, year)| *number == 10 && years.contains(year)).count()
        };
        assert!(among(2131..=2140) > 20 && among(2141..=2200) > 20 && among(2201..=2250) > 20);
        assert!(among(2131..=2132) > 0 && among(2251..=2259) > 0);
        assert!(refusals.iter().filter(|refusal| refusal.is_none()).count() > 100 * (AGES - 10));
    }

    #[test]
    fn at_the_limits_nothing_is_beyond_them_after_2130() {
        let refusals = last_refusals(at_limits);
        assert!(refusals.iter().flatten().all(|&(number, year)| number == 10 || year <= 2130));
        let of = |wanted: fn(&Option<(u32, u64)>) -> bool| refusals.iter().filter(|refusal| wanted(refusal)).count();
        assert!(of(Option::is_none) > 2000 && of(|refusal| refusal.is_some_and(|(_, year)| year > 2130)) > 2000);
    }

    #[test]
    fn some_need_a_history_of_a_few_years_and_some_of_many() {
        let mut random = Random::new(1);
        let needed: Vec<usize> = (0..2000).map(|_| modest(&mut random).history_years()).collect();
        assert_eq!(needed.iter().max(), Some(&MOST_YEARS));
        let among = |years: RangeInclusive<usize>| needed.iter().filter(|needed| years.contains(needed)).count();
        assert!(among(0..=0) > 1000 && among(1..=10) > 400 && among(11..=MOST_YEARS) > 20);
    }
}
