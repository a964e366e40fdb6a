//! One rounding for each projected improvement: cases worked by hand, the edges of 9, and random terms in 128 bits.
use super::figures::{Terms, component, improvement_of};
use super::projection::Component;
use super::refusal::Refusal;
use crate::bases::valid::of_any_size;
use crate::random::Random;

/// With T 2 a component is half way in the year after F: so many hundredths of the way from L to I are left.
fn half_way(rates: [i32; 2], hundredths: u8) -> Terms {
    (rates, 2, hundredths)
}

/// The improvement in the year after F without an addition, and what it would be were each component rounded apart.
fn once_and_apart(by_age: Terms, by_birth_year: Terms) -> (i64, i64) {
    let once = improvement_of(by_age, by_birth_year, 0, 1);
    assert_eq!(once, improvement_of(by_birth_year, by_age, 0, 1));
    (once.expect("within the limits of 9"), component(by_age, 1) + component(by_birth_year, 1))
}

// ---- by hand

/// Hundredths of one by age and by birth year, the improvement, and what two roundings would make of it.
#[test]
fn hundredths() {
    let cases = [
        // 0.49, 0.50, 0.52; 1.00, 1.49, 1.50
        (25, 24, 0, 0),
        (25, 25, 1, 0),
        (26, 26, 1, 0),
        (50, 50, 1, 2),
        (75, 74, 1, 2),
        (75, 75, 2, 2),
        // -0.50, -0.51, -0.99, -1.00; -1.20, -1.50, -1.51
        (-25, -25, 0, 0),
        (-26, -25, -1, 0),
        (-50, -49, -1, 0),
        (-50, -50, -1, 0),
        (-60, -60, -1, -2),
        (-75, -75, -1, -2),
        (-76, -75, -2, -2),
        // 0.25, 0.10, -0.40
        (50, -25, 0, 1),
        (-50, 60, 0, 1),
        (-60, 20, 0, -1),
    ];
    let terms = |hundredths: i32| half_way([hundredths.signum(), 0], hundredths.unsigned_abs() as u8);
    for (by_age, by_birth_year, once, apart) in cases {
        let found = once_and_apart(terms(by_age), terms(by_birth_year));
        assert_eq!(found, (once, apart), "{by_age} and {by_birth_year} hundredths");
    }
}

/// In the year after F the weight with T 3 is (400 + 32 P) / 2700, so 0.48 with P 28 and 20/27 with P 50; with T 7 and
/// P 50 it is 324/343.
#[test]
fn two_divisors() {
    let thirds = |rate, proportion| ([rate, 0], 3, proportion);
    let sevenths = |rate| ([rate, 0], 7, 50);
    // 0.48 + 0.02 is the half itself, 0.80 + 0.70 three of them
    assert_eq!(once_and_apart(thirds(1, 28), half_way([1, 0], 2)), (1, 0));
    assert_eq!(once_and_apart(thirds(1, 28), half_way([1, 0], 1)), (0, 0));
    assert_eq!(once_and_apart(thirds(1, 55), half_way([1, 0], 70)), (2, 2));
    assert_eq!(once_and_apart(thirds(1, 55), half_way([1, 0], 69)), (1, 2));
    // 0.7407 with 0.75 and 0.76
    assert_eq!(once_and_apart(thirds(1, 50), half_way([1, 0], 75)), (1, 2));
    assert_eq!(once_and_apart(thirds(1, 50), half_way([1, 0], 76)), (2, 2));
    // 4.7230 + 0.7407 and 9.4461 + 2.2222, on either side of zero
    assert_eq!(once_and_apart(sevenths(5), thirds(1, 50)), (5, 6));
    assert_eq!(once_and_apart(sevenths(-5), thirds(-1, 50)), (-5, -6));
    assert_eq!(once_and_apart(sevenths(10), thirds(3, 50)), (12, 11));
    assert_eq!(once_and_apart(sevenths(-10), thirds(-3, 50)), (-12, -11));
}

#[test]
fn one_component_has_converged() {
    // T 1: from the year after F on it is its long-term rate
    assert_eq!(improvement_of(([9, 7], 1, 50), half_way([1, 0], 50), 0, 1), Ok(8));
    assert_eq!(improvement_of(([9, -7], 1, 50), half_way([-1, 0], 50), 0, 1), Ok(-7));
    assert_eq!(improvement_of(([9, -7], 1, 50), half_way([-1, 0], 51), 0, 1), Ok(-8));
}

#[test]
fn the_addition_is_whole_and_moves_no_half() {
    let terms = half_way([-1, 0], 25);
    assert_eq!([-3, 0, 3].map(|addition| improvement_of(terms, terms, addition, 1)), [-3, 0, 3].map(Ok));
}

// ---- the edges of 9

/// Half way from 199,999,999 to 200,000,000 or beyond, of this sign, with so many hundredths.
fn near(sign: i32, hundredths: u8) -> Terms {
    half_way([sign * 200_000_000, sign * 199_999_999], hundredths)
}

const BEYOND: Result<i64, Refusal> = Err(Refusal::improvement(60, 2007));

#[test]
fn the_greatest_improvement() {
    let at = |[by_age, by_birth_year]: [u8; 2]| improvement_of(near(1, by_age), near(1, by_birth_year), 100_000_000, 1);
    // 500,000,000.4 and .49; with 150 and 90 the one component rounded apart would be beyond
    assert_eq!([[140, 100], [120, 120], [150, 90], [150, 99]].map(at), [Ok(500_000_000); 4]);
    // 500,000,000.5 and more; with 125 and 125 neither component rounded apart would be beyond
    assert_eq!([[150, 100], [125, 125], [126, 125], [150, 150]].map(at), [BEYOND; 4]);
}

#[test]
fn the_least_improvement() {
    let at =
        |[by_age, by_birth_year]: [u8; 2]| improvement_of(near(-1, by_age), near(-1, by_birth_year), -100_000_000, 1);
    // -500,000,000.4 and .5
    assert_eq!([[140, 100], [150, 100], [125, 125]].map(at), [Ok(-500_000_000); 3]);
    // -500,000,000.51 and more, of which neither component rounded apart would be beyond
    assert_eq!([[126, 125], [150, 101], [150, 150]].map(at), [BEYOND; 3]);
    // -200,000,000.6, which rounded apart would be beyond, and -199,999,999.9
    let by_age = half_way([-200_000_000, -199_999_998], 130);
    assert_eq!(improvement_of(by_age, near(-1, 90), -100_000_000, 1), Ok(-500_000_000));
    assert_eq!(improvement_of(by_age, near(-1, 91), -100_000_000, 1), BEYOND);
}

// ---- in 128 bits

/// A component as one fraction: dividend and divisor.
fn fraction(terms: &Component, years: i64) -> (i128, i128) {
    let [initial_rate, long_term_rate, period, proportion, years] =
        [terms.initial_rate, terms.long_term_rate, terms.convergence_period, terms.proportion_remaining, years]
            .map(i128::from);
    let divisor = 10_000 * period.pow(3);
    let weight = if years < period {
        (period - years).pow(2) * (10_000 * period + (8 * proportion - 20_000) * years)
    } else {
        0
    };
    (long_term_rate * divisor + (initial_rate - long_term_rate) * weight, divisor)
}

fn rounded((dividend, divisor): (i128, i128)) -> i64 {
    (2 * dividend + divisor).div_euclid(2 * divisor) as i64
}

fn any_terms(random: &mut Random) -> Component {
    Component {
        initial_rate: of_any_size(random, 200_000_000).into(),
        long_term_rate: of_any_size(random, 200_000_000).into(),
        convergence_period: random.between(1, 50),
        proportion_remaining: random.between(0, 15_000),
    }
}

#[test]
fn any_terms_are_rounded_as_their_exact_sum_is() {
    let mut random = Random::new(3);
    let (mut below_apart, mut above_apart) = ([0; 2], [0; 2]);
    for _ in 0..200_000 {
        let terms = [any_terms(&mut random), any_terms(&mut random)];
        let years = random.below(52) as i64;
        let [first, second] = terms.each_ref().map(|component| fraction(component, years));
        let exact = (first.0 * second.1 + second.0 * first.1, first.1 * second.1);
        let once = rounded(exact);
        let [by_age, by_birth_year] = &terms;
        assert_eq!(by_age.rounded_sum(by_birth_year, years), once, "{terms:?} after {years} years");
        assert_eq!(by_birth_year.rounded_sum(by_age, years), once, "{terms:?} after {years} years");
        let apart = rounded(first) + rounded(second);
        let sign = usize::from(exact.0 < 0);
        below_apart[sign] += u32::from(once < apart);
        above_apart[sign] += u32::from(once > apart);
    }
    // two roundings would be found in both directions, above and below zero
    assert!(below_apart.iter().chain(&above_apart).all(|&count| count > 1000), "{below_apart:?} {above_apart:?}");
}

/// What the engine's own comment says of a weight: it bounds what has to fit.
#[test]
fn a_weight_is_above_minus_one_and_below_two() {
    for convergence_period in 1..=50 {
        for (proportion_remaining, years) in
            (0..=15_000).step_by(100).flat_map(|proportion| (0..50).map(move |years| (proportion, years)))
        {
            let terms = Component { initial_rate: 1, long_term_rate: 0, convergence_period, proportion_remaining };
            let (dividend, divisor) = fraction(&terms, years);
            assert!(-divisor < dividend && dividend < 2 * divisor, "{terms:?} after {years} years");
        }
    }
}
