//! Rolls by hand: where a member stands, liabilities, each refusal in its order, joins and leaves, any numbers.
use super::refusal::Refusal;
use super::roll::*;
use crate::bases::Draft;
use crate::bases::draft::Component::Age;

/// The history of a basis that needs none.
const NONE: &[u8] = &[];

/// What a number has that no call has touched.
const KEPT: u64 = 77;

/// One in ten dies each year, so that annuities are 1, 1.9 and 2.71 from age 150 down.
fn tenth() -> Draft {
    let mut draft = Draft::plain(2006, 2006);
    (0..131).for_each(|index| draft.set_base_rate(index, 100_000_000));
    draft
}

fn opened(year: u32) -> Vec<u64> {
    let mut roll = vec![KEPT; LENGTH + 1];
    assert_eq!(open(year, &mut roll), Ok(()));
    roll
}

fn joined(roll: &mut [u64], number: u32, age: u32, pension: u32) -> Result<u64, Refusal> {
    join(&tenth().run, NONE, roll, Joiner { number, age, pension })
}

/// The places that are not as they were.
fn changed(roll: &[u64]) -> Vec<(usize, u64)> {
    roll.iter().copied().enumerate().filter(|(_, number)| *number != KEPT).collect()
}

/// Members 1, 2 and so on, each with a liability of 100.
fn with_members(count: u32) -> Vec<u64> {
    let mut roll = opened(2010);
    for number in 1..=count {
        assert_eq!(joined(&mut roll, number, 150, 100), Ok(u64::from(100 * number)));
    }
    roll
}

#[test]
fn where_a_member_stands() {
    let mut roll = opened(2010);
    assert_eq!(changed(&roll), [(0, 2010), (1, 0)]);
    assert_eq!(joined(&mut roll, u32::MAX, 149, 10), Ok(19));
    let first = [(2, u64::from(u32::MAX)), (502, 149), (1002, 10), (1502, 19)];
    assert_eq!(changed(&roll), [&[(0, 2010), (1, 1)], &first[..]].concat());
    assert_eq!(joined(&mut roll, 0, 150, 5), Ok(24));
    assert_eq!([3, 503, 1003, 1503].map(|place| roll[place]), [0, 150, 5, 5]);
    assert_eq!(LENGTH, 2002);
}

#[test]
fn liabilities() {
    let of = |age, pension| joined(&mut opened(2010), 1, age, pension);
    assert_eq!(
        [(150, 123), (149, 10), (148, 100), (148, 0)].map(|(age, pension)| of(age, pension)),
        [Ok(123), Ok(19), Ok(271), Ok(0)]
    );
    // 5.7, 11.4, and 9.5, 28.5 and 135.5, which go up
    let rounded = [(149, 3), (149, 6), (149, 5), (149, 15), (148, 50)].map(|(age, pension)| of(age, pension));
    assert_eq!(rounded, [6, 11, 10, 29, 136].map(Ok));
    assert_eq!(of(148, GREATEST_PENSION), Ok(27_100_000));
}

/// A factor of 0.99 in the second year leaves 0.9 x 0.901 after it; the period annuity is 2.71.
#[test]
fn the_annuity_is_the_cohorts() {
    let mut draft = tenth();
    draft.set_addition(10_000_000);
    let joiner = Joiner { number: 1, age: 148, pension: 10_000 };
    assert_eq!(join(&draft.run, NONE, &mut opened(2006), joiner), Ok(27_109));
}

/// Nobody dies, and the discount is below zero: no product and no sum is too large.
#[test]
fn the_greatest_liability() {
    let mut draft = Draft::plain(2006, 2006);
    draft.set_discount_rate(-10_000_000);
    let mut roll = opened(2006);
    for number in 1..=MEMBERS as u32 {
        let joiner = Joiner { number, age: 20, pension: GREATEST_PENSION };
        assert_eq!(join(&draft.run, NONE, &mut roll, joiner), Ok(u64::from(number) * 2_703_386_038));
    }
    assert_eq!(total(&roll), Ok(1_351_693_019_000));
}

#[test]
fn a_liability_is_set_at_the_join() {
    let immortal = Draft::plain(2006, 2006).run;
    let mut roll = opened(2010);
    assert_eq!(joined(&mut roll, 1, 149, 100), Ok(190));
    assert_eq!(join(&immortal, NONE, &mut roll, Joiner { number: 2, age: 149, pension: 100 }), Ok(390));
    assert_eq!(leave(&mut roll, 1), Ok(200));
    assert_eq!(joined(&mut roll, 1, 149, 100), Ok(390));
    assert_eq!(leave(&mut roll, 2), Ok(190));
}

/// All that can be wrong at once, and one cause after another taken away; nothing changes.
#[test]
fn the_order_of_a_join() {
    let refused = |roll: &[u64], run: &[u8], history: &[u8], joiner: (u32, u32, u32)| {
        let (number, age, pension) = joiner;
        let mut after = roll.to_vec();
        let outcome = join(run, history, &mut after, Joiner { number, age, pension });
        assert_eq!(after, roll);
        outcome.unwrap_err()
    };
    let (full, some, good) = (with_members(500), with_members(499), tenth().run);
    let over = GREATEST_PENSION + 1;
    assert_eq!(refused(&full[..LENGTH - 1], &[], NONE, (500, 19, over)), Refusal::output(16_016));
    assert_eq!(refused(&full, &[], NONE, (500, 19, over)), Refusal::on_roll(500));
    assert_eq!(refused(&full, &[], NONE, (501, 19, over)), Refusal::full_roll(501));
    assert_eq!(refused(&some, &[], NONE, (499, 19, over)), Refusal::on_roll(499));
    assert_eq!(refused(&some, &[], NONE, (501, 19, over)), Refusal::pension(501));
    assert_eq!(refused(&some, &[], NONE, (501, 19, 0)), Refusal::length());
    assert_eq!(refused(&some, &good, &[0], (501, 19, 0)), Refusal::history_length(0));
    assert_eq!(refused(&some, &good, NONE, (501, 19, 0)), Refusal::age(19));
    assert_eq!(join(&good, NONE, &mut some.clone(), Joiner { number: 501, age: 150, pension: 0 }), Ok(49_900));
}

#[test]
fn a_pension_of_nothing_needs_its_annuity() {
    let mut draft = tenth();
    draft.set_component(Age, 128, [200_000_000, -200_000_000], 4, 150);
    let joiner = Joiner { number: 1, age: 148, pension: 0 };
    assert_eq!(join(&draft.run, NONE, &mut opened(2010), joiner), Err(Refusal::improvement(148, 2007)));
}

#[test]
fn any_year_opens() {
    for year in [0, 2005, 2131, u32::MAX] {
        let mut roll = opened(year);
        assert_eq!(joined(&mut roll, 1, 150, 1), Err(Refusal::year(year)));
        assert_eq!(total(&roll), Ok(0));
    }
}

#[test]
fn leaves_and_the_places_left() {
    let mut roll = with_members(3);
    assert_eq!(leave(&mut roll, 1), Ok(200));
    assert_eq!(leave(&mut roll, 1), Err(Refusal::not_on_roll(1)));
    // those behind move up, and the last place keeps what it had
    assert_eq!(roll[1..6], [2, 2, 3, 3, KEPT]);
    assert_eq!(joined(&mut roll, 1, 149, 10), Ok(219));
    assert_eq!((&roll[1..6], &roll[1502..1506]), (&[3, 2, 3, 1, KEPT][..], &[100, 100, 19, KEPT][..]));
    let mut full = with_members(500);
    for (leaver, comer) in [(1, 501), (250, 502), (500, 503), (503, 1)] {
        assert_eq!(joined(&mut full, comer, 150, 100), Err(Refusal::full_roll(comer)));
        assert_eq!(leave(&mut full, leaver), Ok(49_900));
        assert_eq!(joined(&mut full, comer, 150, 100), Ok(50_000));
    }
    assert_eq!(full[LENGTH], KEPT);
}

#[test]
fn any_numbers_are_a_roll() {
    let mut roll = vec![u64::MAX; LENGTH];
    assert_eq!(total(&roll), Ok(0u64.wrapping_sub(500)));
    assert_eq!(joined(&mut roll, 1, 150, 1), Err(Refusal::full_roll(1)));
    // no number of 32 bits is one of these
    assert_eq!(leave(&mut roll, u32::MAX), Err(Refusal::not_on_roll(u32::MAX)));
    roll[502 - 1] = 9;
    assert_eq!(leave(&mut roll, 9), Ok(0u64.wrapping_sub(499)));
    assert_eq!(roll[COUNT], 499);
    roll[YEAR] = (5 << 32) + 2010;
    assert_eq!(joined(&mut roll, 1, 150, 500), Ok(1));
    assert_eq!(roll[YEAR], (5 << 32) + 2010);
}

#[test]
fn lists_that_are_too_short() {
    for length in [0, 1, LENGTH - 1] {
        let mut roll = vec![KEPT; length];
        let refused = Err(Refusal::output(16_016));
        assert_eq!(open(2010, &mut roll), refused.map(|_: u64| ()));
        assert_eq!([joined(&mut roll, 1, 150, 1), leave(&mut roll, 1), total(&roll)], [refused; 3]);
        assert_eq!(roll, vec![KEPT; length]);
    }
}
