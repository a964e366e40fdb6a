//! A roll of pensions in payment, kept by the caller as a list of numbers: the valuation year, how many are on it, and a
//! column each of member numbers, ages, pensions and liabilities, in the order of joining.
use super::enquiries::annuity;
use super::refusal::Refusal;
use super::units::product;
use super::valuation::Kind;

pub const MEMBERS: usize = 500;
pub const YEAR: usize = 0;
pub const COUNT: usize = 1;
/// Where each column begins.
pub const NUMBERS: usize = 2;
pub const AGES: usize = NUMBERS + MEMBERS;
pub const PENSIONS: usize = AGES + MEMBERS;
pub const LIABILITIES: usize = PENSIONS + MEMBERS;
pub const LENGTH: usize = LIABILITIES + MEMBERS;

/// Pence a year.
pub const GREATEST_PENSION: u32 = 10_000_000;

/// One who joins.
#[derive(Clone, Copy, Debug, PartialEq, Eq)]
pub struct Joiner {
    pub number: u32,
    pub age: u32,
    pub pension: u32,
}

/// 11 of a list that is too short, with the bytes that a roll has.
const TOO_SHORT: Refusal = Refusal::output(LENGTH * size_of::<u64>());

pub fn open(year: u32, roll: &mut [u64]) -> Result<(), Refusal> {
    let roll: &mut [u64; LENGTH] = roll.first_chunk_mut().ok_or(TOO_SHORT)?;
    roll[YEAR] = u64::from(year);
    roll[COUNT] = 0;
    Ok(())
}

/// The total after the join. The checks of the roll come before those of the basis.
pub fn join(run: &[u8], history: &[u8], roll: &mut [u64], joiner: Joiner) -> Result<u64, Refusal> {
    let roll: &mut [u64; LENGTH] = roll.first_chunk_mut().ok_or(TOO_SHORT)?;
    let Joiner { number, age, pension } = joiner;
    if is_there(on_roll(roll, NUMBERS), number) {
        return Err(Refusal::on_roll(number));
    }
    let place = count(roll);
    if place == MEMBERS {
        return Err(Refusal::full_roll(number));
    }
    if pension > GREATEST_PENSION {
        return Err(Refusal::pension(number));
    }
    let annuity = annuity(run, history, Kind::Cohort, age, 0, roll[YEAR] as u32)?;
    let liability = product(u64::from(pension), annuity);
    let member = [u64::from(number), u64::from(age), u64::from(pension), liability];
    for (column, entry) in [NUMBERS, AGES, PENSIONS, LIABILITIES].into_iter().zip(member) {
        roll[column + place] = entry;
    }
    roll[COUNT] = place as u64 + 1;
    Ok(sum(roll))
}

/// The total after the leave. In each column those behind the leaver move up a place.
pub fn leave(roll: &mut [u64], number: u32) -> Result<u64, Refusal> {
    let roll: &mut [u64; LENGTH] = roll.first_chunk_mut().ok_or(TOO_SHORT)?;
    let numbers = on_roll(roll, NUMBERS);
    let Some(place) = numbers.iter().position(|&member| member == u64::from(number)) else {
        return Err(Refusal::not_on_roll(number));
    };
    let count = numbers.len();
    for column in [NUMBERS, AGES, PENSIONS, LIABILITIES] {
        roll.copy_within(column + place + 1..column + count, column + place);
    }
    roll[COUNT] = count as u64 - 1;
    Ok(sum(roll))
}

pub fn total(roll: &[u64]) -> Result<u64, Refusal> {
    roll.first_chunk().ok_or(TOO_SHORT).map(sum)
}

/// How many are on it: of any number at most what there is room for.
fn count(roll: &[u64; LENGTH]) -> usize {
    roll[COUNT].min(MEMBERS as u64) as usize
}

/// The entries of a column for those who are on it.
fn on_roll(roll: &[u64; LENGTH], column: usize) -> &[u64] {
    &roll[column..][..count(roll)]
}

/// Looks at every number: without a way out in the middle several are looked at at a time.
fn is_there(numbers: &[u64], number: u32) -> bool {
    numbers.iter().fold(false, |found, &member| found | (member == u64::from(number)))
}

/// Only numbers that were never a roll can be too large for it.
fn sum(roll: &[u64; LENGTH]) -> u64 {
    on_roll(roll, LIABILITIES).iter().fold(0, |sum, &liability| sum.wrapping_add(liability))
}
