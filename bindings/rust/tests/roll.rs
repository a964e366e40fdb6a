//! Rolls of pensions in payment. Totals are compared with sums that are worked out here from the annuities, in 128 bits.

use parvusek::{Basis, Kind, Member, NotARoll, Refusal, Roll, GREATEST_PENSION, ROLL_LENGTH, ROLL_MEMBERS, UNIT};

const SAMPLES: &str = concat!(env!("CARGO_MANIFEST_DIR"), "/../../samples");

fn sample() -> Basis {
    Basis::open(format!("{SAMPLES}/basis.bin")).expect("the sample is accepted")
}

/// The sample with a base year of 2000, and its history.
fn older() -> Basis {
    Basis::open_with_history(format!("{SAMPLES}/older/basis.bin"), format!("{SAMPLES}/older/history.bin"))
        .expect("the older sample is accepted")
}

fn refusal(number: u32, first: u64) -> Refusal {
    Refusal { number, first, second: 0 }
}

/// Pension times annuity over one, rounded to the nearest whole, ties up.
fn liability(basis: &Basis, age: u32, pension: u32, year: u32) -> u64 {
    let annuity = basis.annuity(Kind::Cohort, age, 0, year).expect("the annuity of a member who joins");
    let twice = 2 * u128::from(pension) * u128::from(annuity) + u128::from(UNIT);
    (twice / (2 * u128::from(UNIT))).try_into().expect("a liability has 64 bits")
}

/// A join that is refused so, and changes no number.
fn refuses(roll: &mut Roll, basis: &Basis, (number, age, pension): (u32, u32, u32), expected: Refusal) {
    let before = *roll.as_numbers();
    let refused = roll.join(basis, number, age, pension).expect_err("the join is refused");
    assert_eq!(refused.refusal, expected);
    assert_eq!(Refusal::from(refused), expected);
    assert_eq!(refused.is_of_pension, expected.number == 5);
    assert_eq!(roll.as_numbers(), &before);
}

// ---- members and totals

#[test]
fn members_are_listed_in_the_order_in_which_they_joined() {
    let (basis, mut roll) = (sample(), Roll::open(2010));
    assert_eq!((roll.year(), roll.len(), roll.total(), roll.is_empty()), (2010, 0, 0, true));
    let asked = [(7, 65, 1_200_000), (0, 20, GREATEST_PENSION), (u32::MAX, 150, 0), (8, 90, 1)];
    let mut expected = Vec::new();
    for (number, age, pension) in asked {
        expected.push(Member { number, age, pension, liability: liability(&basis, age, pension, 2010) });
        let total = expected.iter().map(|member| member.liability).sum();
        assert_eq!(roll.join(&basis, number, age, pension), Ok(total));
        assert_eq!(roll.total(), total);
    }
    assert_eq!(roll.members().len(), 4);
    assert_eq!(roll.members().collect::<Vec<_>>(), expected);

    assert_eq!(roll.leave(0), Ok(expected[0].liability + expected[2].liability + expected[3].liability));
    expected.remove(1);
    assert_eq!(roll.members().collect::<Vec<_>>(), expected);
    assert!(roll.contains(u32::MAX) && roll.contains(8) && !roll.contains(0) && !roll.is_empty());
    assert_eq!(format!("{roll:?}"), format!("Roll {{ year: 2010, len: 3, total: {}, .. }}", roll.total()));
}

#[test]
fn a_liability_is_rounded_to_whole_pence_with_ties_up() {
    let mut run = sample().run().to_vec();
    // No discount, and a base rate of one tenth at 149: the annuity is 1.9 to one at that age, so that 5 pence give 9.5.
    run[12..16].copy_from_slice(&0_i32.to_le_bytes());
    run[30 + 4 * 129..][..4].copy_from_slice(&100_000_000_i32.to_le_bytes());
    let basis = Basis::from_run(&run).expect("every field is within its limits");
    let mut roll = Roll::open(2008);
    for (pension, liability) in [(5, 10), (6, 11), (1, 2), (15, 29), (0, 0)] {
        assert_eq!(roll.join(&basis, pension, 149, pension).map(|_| ()), Ok(()));
        assert_eq!(roll.members().last().map(|member| member.liability), Some(liability));
    }
    assert_eq!(roll.total(), 52);
}

#[test]
fn a_liability_stays_when_the_basis_changes() {
    let (first, second, mut roll) = (sample(), older(), Roll::open(2010));
    let [by_first, by_second] = [&first, &second].map(|basis| liability(basis, 65, 1_000_000, 2010));
    assert_ne!(by_first, by_second);
    assert_eq!(roll.join(&first, 1, 65, 1_000_000), Ok(by_first));
    assert_eq!(roll.join(&second, 2, 65, 1_000_000), Ok(by_first + by_second));
    assert_eq!(roll.join(&first, 3, 65, 1_000_000), Ok(2 * by_first + by_second));
    assert_eq!(roll.leave(1), Ok(by_first + by_second));
    assert_eq!(roll.join(&second, 1, 65, 1_000_000), Ok(by_first + 2 * by_second));
}

#[test]
fn a_full_roll_takes_the_next_when_one_has_left() {
    let (basis, mut roll) = (sample(), Roll::open(2010));
    let member = |place: u32| (place * 8_000_000, 20 + place % 131, 20_000 * place);
    let mut sum = 0_u128;
    for (number, age, pension) in (0..500).map(member) {
        sum += u128::from(liability(&basis, age, pension, 2010));
        assert_eq!(roll.join(&basis, number, age, pension).map(u128::from), Ok(sum));
    }
    assert_eq!(roll.len(), ROLL_MEMBERS);
    refuses(&mut roll, &basis, (1, 65, 100), refusal(14, 1));

    // The first, one in the middle and the last leave; two of them and another one join.
    let further = [member(0), member(250), member(499)];
    for (number, age, pension) in further {
        sum -= u128::from(liability(&basis, age, pension, 2010));
        assert_eq!(roll.leave(number).map(u128::from), Ok(sum));
        assert_eq!(roll.leave(number), Err(refusal(15, number.into())));
    }
    for (number, age, pension) in [(0, 30, 77), (1, 40, 88), (250 * 8_000_000, 50, 99)] {
        sum += u128::from(liability(&basis, age, pension, 2010));
        assert_eq!(roll.join(&basis, number, age, pension).map(u128::from), Ok(sum));
    }
    refuses(&mut roll, &basis, (499 * 8_000_000, 65, 100), refusal(14, 499 * 8_000_000));
    assert_eq!(roll.members().skip(497).map(|member| member.pension).collect::<Vec<_>>(), [77, 88, 99]);
    assert_eq!(u128::from(roll.total()), sum);
}

/// Some thousand calls from a simple series of numbers, against a list of the members that are on the roll.
#[test]
fn after_each_of_many_calls_the_total_is_the_sum_of_those_on_the_roll() {
    let (bases, mut roll) = ([sample(), older()], Roll::open(2020));
    let (mut on, mut drawn): (Vec<Member>, u64) = (Vec::new(), 6);
    for call in 0..3_000 {
        drawn = drawn.wrapping_mul(6_364_136_223_846_793_005).wrapping_add(1_442_695_040_888_963_407);
        let [number, age, pension] = [(56, 60), (40, 131), (8, 10_000_001)].map(|(by, below)| (drawn >> by) % below);
        let (number, age, pension) = (number as u32, 20 + age as u32, pension as u32);
        let place = on.iter().position(|member| member.number == number);
        if call % 3 == 0 {
            let left = place.map(|place| on.remove(place));
            let expected = left.map(|_| on.iter().map(|member| member.liability).sum());
            assert_eq!(roll.leave(number), expected.ok_or(refusal(15, number.into())));
        } else if place.is_some() {
            refuses(&mut roll, &bases[call % 2], (number, age, pension), refusal(16, number.into()));
        } else {
            let liability = liability(&bases[call % 2], age, pension, 2020);
            on.push(Member { number, age, pension, liability });
            let sum = on.iter().map(|member| member.liability).sum();
            assert_eq!(roll.join(&bases[call % 2], number, age, pension), Ok(sum));
        }
        assert!(roll.members().eq(on.iter().copied()));
    }
}

// ---- refusals

#[test]
fn joins_are_refused_in_their_order() {
    let (basis, mut roll) = (sample(), Roll::open(2007));
    let without_history = Basis::from_run(older().run()).expect("the run is accepted");
    refuses(&mut roll, &without_history, (7, 19, GREATEST_PENSION + 1), refusal(5, 7));
    refuses(&mut roll, &without_history, (u32::MAX, 19, u32::MAX), refusal(5, u32::MAX.into()));
    refuses(&mut roll, &without_history, (7, 19, GREATEST_PENSION), refusal(13, 6_144));
    refuses(&mut roll, &basis, (7, 19, 0), refusal(6, 19));
    // The year is not checked when the roll is opened, and a pension of 0 needs its annuity, too.
    refuses(&mut roll, &basis, (7, 20, 0), refusal(7, 2007));
    for year in [0, 2131, u32::MAX] {
        let mut roll = Roll::open(year);
        assert_eq!(roll.year(), year);
        refuses(&mut roll, &basis, (7, 20, 0), refusal(7, year.into()));
        assert_eq!(roll.leave(7), Err(refusal(15, 7)));
    }

    let mut roll = Roll::open(2130);
    for number in 0..500 {
        assert!(roll.join(&basis, number, 150, 1).is_ok());
        refuses(&mut roll, &without_history, (number, 19, u32::MAX), refusal(16, number.into()));
    }
    refuses(&mut roll, &without_history, (500, 19, u32::MAX), refusal(14, 500));
}

#[test]
fn what_the_work_refuses_is_the_joins_refusal() {
    // Improvements of -50 per cent at every age: the factor passes 4 to one in the fourth year.
    let mut run = sample().run().to_vec();
    let mut put = |offset: usize| run[offset..offset + 4].copy_from_slice(&(-200_000_000_i32).to_le_bytes());
    (0..262).for_each(|entry| put(554 + 4 * entry));
    (0..538).for_each(|entry| put(1864 + 4 * entry));
    run[8..12].copy_from_slice(&(-100_000_000_i32).to_le_bytes());
    let steep = Basis::from_run(&run).expect("every field is within its limits");
    let mut roll = Roll::open(2008);
    refuses(&mut roll, &steep, (7, 60, 0), Refusal { number: 10, first: 64, second: 2012 });
}

#[test]
fn the_fives_of_a_join_are_told_apart() {
    let (basis, mut roll) = (sample(), Roll::open(2010));
    let refused = roll.join(&basis, 12, 65, GREATEST_PENSION + 1).expect_err("the pension is above its limit");
    assert_eq!(
        refused.to_string(),
        "refused 5: a field outside its limits: the pension is above 10,000,000 pence (member 12)"
    );
    assert_eq!(refused.refusal.to_string(), "refused 5: a field outside its limits (offset 12)");
    let refused = roll.join(&basis, 12, 151, GREATEST_PENSION).expect_err("the age is above its limit");
    assert_eq!(refused.to_string(), "refused 6: age outside 20 to 150 (age 151)");
    let sentences = [(14, "the roll is full"), (15, "the member number is not on the roll")];
    for (number, sentence) in sentences {
        assert_eq!(refusal(number, 12).to_string(), format!("refused {number}: {sentence} (member 12)"));
    }
}

// ---- keeping a roll

/// Three members, of whom the second has left.
fn kept() -> Roll {
    let (basis, mut roll) = (sample(), Roll::open(2010));
    for (number, age) in [(1001, 65), (1002, 70), (1003, 90)] {
        assert!(roll.join(&basis, number, age, 1_000).is_ok());
    }
    assert!(roll.leave(1002).is_ok());
    roll
}

#[test]
fn a_roll_that_was_kept_goes_on_as_it_was() {
    let (basis, mut roll) = (sample(), kept());
    let mut again = Roll::from_numbers(roll.as_numbers()).expect("the numbers of a roll");
    assert_eq!((&again, again.as_numbers()), (&roll, roll.as_numbers()));
    assert_eq!(roll.join(&basis, 1002, 71, 5), again.join(&basis, 1002, 71, 5));
    assert_eq!(again, roll);
    assert_eq!(again.clone().leave(1001), roll.leave(1001));
    assert_ne!(again, roll);
    assert!(Roll::from_numbers(Roll::open(u32::MAX).as_numbers()).is_ok());

    // What an earlier member left behind the last one is no part of a roll, and neither is it checked.
    let mut numbers = *kept().as_numbers();
    numbers[2 + 2] = u64::MAX;
    assert_eq!(Roll::from_numbers(&numbers), Ok(kept()));
    assert_ne!(Roll::open(2010), Roll::open(2011));
}

#[test]
fn numbers_that_no_call_leaves_are_no_roll() {
    let numbers = *kept().as_numbers();
    let wide = 1 << 32;
    let changes = [
        (0, wide, NotARoll::Year(wide), "the year 4294967296 has more than 32 bits"),
        (1, 501, NotARoll::Count(501), "501 members, and a roll holds 500"),
        (1, u64::MAX, NotARoll::Count(u64::MAX), "18446744073709551615 members, and a roll holds 500"),
        // The member who left was between the others, so that the last stands behind itself once more.
        (1, 3, NotARoll::Repeated(2), "the member number in place 2 is an earlier one's"),
        (2, wide + 1001, NotARoll::Number(0), "the member number in place 0 has more than 32 bits"),
        (3, 1001, NotARoll::Repeated(1), "the member number in place 1 is an earlier one's"),
        (503, 19, NotARoll::Age(1), "the age in place 1 is outside 20 to 150"),
        (503, 151, NotARoll::Age(1), "the age in place 1 is outside 20 to 150"),
        (1002, 10_000_001, NotARoll::Pension(0), "the pension in place 0 is above 10000000"),
        (1502, 999, NotARoll::Liability(0), "no pension such as that in place 0 has its liability"),
        (1502, 524_001, NotARoll::Liability(0), "no pension such as that in place 0 has its liability"),
        (1503, u64::MAX, NotARoll::Liability(1), "no pension such as that in place 1 has its liability"),
    ];
    for (place, number, expected, sentence) in changes {
        let mut changed = numbers;
        changed[place] = number;
        let error = Roll::from_numbers(&changed).expect_err(sentence);
        assert_eq!((error, error.to_string()), (expected, format!("not a roll: {sentence}")));
    }
    let longer = [&numbers[..], &[0]].concat();
    for list in [&numbers[..0], &numbers[..ROLL_LENGTH - 1], &longer] {
        let error = Roll::from_numbers(list).expect_err("a list of another length");
        assert_eq!(error, NotARoll::Length(list.len()));
        assert_eq!(error.to_string(), format!("not a roll: {} numbers, and a roll has 2002", list.len()));
    }
}
