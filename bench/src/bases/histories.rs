//! Histories: the actual improvements of the years up to the foundation year. Accepted ones of the same kinds as the
//! runs, and damage to them.
use super::files::{file_of, resealed, swap_blocks, top_bit};
use super::valid::of_any_size;
use crate::engine::layout::*;
use crate::random::Random;
use std::ops::RangeInclusive;

/// The years that the longest history has: from 1993 to 2080.
pub const MOST_YEARS: usize = 88;

/// The file of so many years, with the improvement of each year, counted from the first, at each age.
pub fn history_of(years: usize, mut improvement: impl FnMut(usize, u32) -> i32) -> Vec<u8> {
    let mut joined = Vec::with_capacity(years * 2 * BLOCK_DATA);
    for year in 0..years {
        let mut part = |ages: RangeInclusive<u32>| {
            let start = joined.len();
            ages.for_each(|age| joined.extend_from_slice(&improvement(year, age).to_le_bytes()));
            joined.resize(start + BLOCK_DATA, 0);
        };
        part(20..=85);
        part(86..=150);
    }
    file_of(&joined)
}

/// As the history that the benchmark reads: improvements of 1 to 2 per cent, less at high ages.
pub fn benchmark(years: usize) -> Vec<u8> {
    history_of(years, |year, age| 20_000_000 - 100_000 * (age as i32 - 20) + 50_000 * (year as i32 % 7))
}

/// Improvements that a real history could have, so that most enquiries are answered.
pub fn modest(random: &mut Random, years: usize) -> Vec<u8> {
    let spread = random.pick(&[0, 1, 1_000, 1_000_000, 30_000_000, 60_000_000]);
    history_of(years, |_, _| random.between(-spread, spread) as i32)
}

/// Improvements anywhere in their limits, of any order of magnitude.
pub fn anywhere(random: &mut Random, years: usize) -> Vec<u8> {
    let limit = 500_000_000 >> random.below(8);
    history_of(years, |_, _| of_any_size(random, limit))
}

/// Improvements at or next to a limit, or about 0; one and the same for many, so that not every factor grows at once.
pub fn extreme(random: &mut Random, years: usize) -> Vec<u8> {
    const IMPROVEMENTS: [i32; 7] = [-500_000_000, -499_999_999, -1, 0, 1, 499_999_999, 500_000_000];
    let common = random.pick(&IMPROVEMENTS);
    let mixed = random.one_in(2);
    history_of(years, |_, _| if mixed && random.one_in(8) { random.pick(&IMPROVEMENTS) } else { common })
}

/// Factors that double every three years, to exactly 4 U after six, or to a little beside it.
pub fn brink(random: &mut Random, years: usize) -> Vec<u8> {
    let nudge = random.pick(&[0, 0, -1, 1]);
    let shift = random.below(3) as usize;
    history_of(years, |year, age| {
        // 1.25, 1.25 and 1.28, in an order that differs by age
        let rate = if (year + age as usize + shift).is_multiple_of(3) { -280_000_000 } else { -250_000_000 };
        if random.one_in(16) { rate + nudge } else { rate }
    })
}

/// Damages a history in one of the ways that its checks must find, or now and then in none. Without a whole block only
/// its length can be changed: where no history is needed, any at all is one too many.
pub fn damage(random: &mut Random, history: &mut Vec<u8>) {
    if history.len() < BLOCK_LENGTH {
        return length(random, history);
    }
    match random.below(10) {
        0 | 1 => length(random, history),
        2 => {
            let place = random.below(history.len() as u64) as usize;
            history[place] ^= 1 << random.below(8);
        }
        3 => block_number(random, history),
        4 => swap_blocks(random, history),
        5 => (0..=random.below(3)).for_each(|_| zero_byte(random, history)),
        6 => (0..=random.below(3)).for_each(|_| improvement(random, history)),
        // in one year or in several: every byte comes before every number
        7 => {
            (0..=random.below(3)).for_each(|_| improvement(random, history));
            (0..=random.below(3)).for_each(|_| zero_byte(random, history));
        }
        8 => two_faults(random, history),
        _ => top_bit(random, history),
    }
}

fn length(random: &mut Random, history: &mut Vec<u8>) {
    let needed = history.len() as i64;
    let length = match random.below(3) {
        0 => random.pick(&[0, 1, 511, 512, 1023, 1024, 1025, 2048]),
        1 => needed + random.pick(&[-1024, -512, -1, 1, 512, 1024]),
        _ => random.below((HISTORY_YEAR * (MOST_YEARS + 1)) as u64) as i64,
    };
    history.resize(length.max(0) as usize, 0);
}

fn block_number(random: &mut Random, history: &mut [u8]) {
    resealed(random, history, |random, block| {
        let number = match random.below(2) {
            0 => random.pick(&[0, 1, 2, 176, 256, 65535]),
            _ => random.below(2 * MOST_YEARS as u64) as u16,
        };
        block[..2].copy_from_slice(&number.to_le_bytes());
    });
}

/// A block's number that is wrong in one place and a check that is wrong in another, or in the same.
fn two_faults(random: &mut Random, history: &mut [u8]) {
    block_number(random, history);
    let block = BLOCK_LENGTH * random.below((history.len() / BLOCK_LENGTH) as u64) as usize;
    history[block + 508 + random.below(4) as usize] ^= random.between(1, 255) as u8;
}

/// How many data bytes of a block are improvements, by the number that it bears.
fn improvements_of(block: &[u8]) -> usize {
    if block[0].is_multiple_of(2) { 4 * 66 } else { 4 * 65 }
}

fn zero_byte(random: &mut Random, history: &mut [u8]) {
    resealed(random, history, |random, block| {
        let first = 2 + improvements_of(block);
        let place = match random.below(3) {
            0 => first,
            1 => 507,
            _ => random.between(first as i64, 507) as usize,
        };
        block[place] = random.between(1, 255) as u8;
    });
}

fn improvement(random: &mut Random, history: &mut [u8]) {
    resealed(random, history, |random, block| {
        let last = improvements_of(block) / 4 - 1;
        let place = match random.below(3) {
            0 => 0,
            1 => last,
            _ => random.below(last as u64 + 1) as usize,
        };
        let beyond = random.pick(&[-500_000_001, 500_000_001, i32::MIN, i32::MAX]);
        block[2 + 4 * place..][..4].copy_from_slice(&beyond.to_le_bytes());
    });
}

#[cfg(test)]
mod tests {
    use super::*;
    use crate::bases::Draft;
    use crate::engine::basis::Basis;
    use crate::engine::refusal::Refusal;
    use std::collections::BTreeSet;

    /// The plain run whose history has so many years.
    fn run(years: usize) -> Vec<u8> {
        Draft::plain(2080, 2080 - years as u16).run
    }

    #[test]
    fn every_kind_is_accepted_at_every_length() {
        let mut random = Random::new(1);
        for kind in [modest, anywhere, extreme, brink] {
            for years in [0, 1, 2, 6, MOST_YEARS] {
                let (run, history) = (run(years), kind(&mut random, years));
                assert_eq!(history.len(), 1024 * years);
                assert!(Basis::accept(&run, &history).is_ok());
            }
        }
    }

    #[test]
    fn some_factors_pass_4_in_the_years_of_a_history_and_some_come_to_it() {
        let mut random = Random::new(2);
        let run = run(6);
        let histories: Vec<Vec<u8>> = (0..60).map(|_| brink(&mut random, 6)).collect();
        let factors: Vec<_> = histories
            .iter()
            .flat_map(|history| (20..=150).map(|age| Basis::accept(&run, history).unwrap().factor(age, 2080)))
            .collect();
        assert!(factors.contains(&Ok(4_000_000_000)));
        assert!(factors.iter().any(|factor| factor.is_err_and(|Refusal { number, .. }| number == 10)));
    }

    #[test]
    fn damage_leads_to_every_refusal_of_a_history() {
        let mut random = Random::new(3);
        let mut met = [0; 14];
        for case in 0..2000 {
            let years = case % 4;
            let run = run(years);
            let mut history = modest(&mut random, years);
            (0..=random.below(2)).for_each(|_| damage(&mut random, &mut history));
            assert!(history.len() <= HISTORY_YEAR * (MOST_YEARS + 1));
            met[Basis::accept(&run, &history).map_or_else(|refusal| refusal.number, |_| 0) as usize] += 1;
        }
        let expected = [0, 2, 3, 4, 5, 13];
        assert!((0..14).all(|number| (met[number] > 0) == expected.contains(&number)), "{met:?}");
    }

    /// The first and the last year, both blocks of a year, both ends of its numbers and of its zero bytes; and zero
    /// bytes with numbers before them.
    #[test]
    fn damage_leads_to_both_ends_of_a_history_and_of_each_block() {
        let mut random = Random::new(4);
        for years in [1, 2, 6, MOST_YEARS] {
            let (run, sound) = (run(years), history_of(years, |_, _| 0));
            let mut met = BTreeSet::new();
            for _ in 0..6000 {
                let mut history = sound.clone();
                damage(&mut random, &mut history);
                if let Err(Refusal { number, first, .. }) = Basis::accept(&run, &history) {
                    met.insert((number, first as usize));
                }
            }
            for block in [0, 1, 2 * years - 2, 2 * years - 1] {
                let (start, numbers) = (BLOCK_DATA * block, 4 * HISTORY_PARTS[block % 2]);
                let wanted = [
                    (2, block),
                    (3, block),
                    (4, start + numbers),
                    (4, start + BLOCK_DATA - 1),
                    (5, start),
                    (5, start + numbers - 4),
                ];
                for refusal in wanted {
                    assert!(met.contains(&refusal), "{refusal:?} was never met in {years} years");
                }
            }
        }
    }
}
