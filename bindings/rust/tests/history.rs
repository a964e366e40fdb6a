//! Bases whose base year is before the foundation year: every call is lent their history, and none answers without it.
//! The numbers expected are worked by hand.

use std::fs;
use std::path::PathBuf;

use parvusek::{Basis, Kind, OpenError, Question, Record, Refusal, Results, Standing, GRID, HISTORY_YEAR, UNIT};

// ---- bases and histories

/// F 2006 and this base year, every base rate one tenth, no rate of improvement but this addition, T 20, P 50.
fn level(base_year: u16, addition: i32) -> Basis {
    let mut run = b"MPB1".to_vec();
    run.extend(2006_u16.to_le_bytes());
    run.extend(base_year.to_le_bytes());
    run.extend(addition.to_le_bytes());
    run.extend([0; 18]);
    run.extend(100_000_000_i32.to_le_bytes().repeat(131));
    run.extend([0; 2 * 4 * 131]);
    run.extend([[20; 131], [50; 131]].concat());
    run.extend([0; 2 * 4 * 269]);
    run.extend([[20; 269], [50; 269]].concat());
    Basis::from_run(&run).expect("every field is within its limits")
}

/// The block of a history: its number, its data, and the sum of its words, each times its place.
fn block(number: u16, data: &[u8; 506]) -> Vec<u8> {
    let mut block = [&number.to_le_bytes()[..], data].concat();
    let words = block.chunks(4).map(|word| u32::from_le_bytes(word.try_into().expect("four bytes")));
    let check = words.zip(1..).fold(0_u32, |sum, (word, place)| sum.wrapping_add(word.wrapping_mul(place)));
    block.extend(check.to_le_bytes());
    block
}

/// The history file of so many years from 2006 - years + 1 on, of each an improvement by age and year.
fn history(years: u32, improvement: impl Fn(u32, u32) -> i32) -> Vec<u8> {
    let mut file = Vec::new();
    for (year, number) in (2007 - years..=2006).zip((0..).step_by(2)) {
        for (ages, further) in [(20..=85, 0), (86..=150, 1)] {
            let mut data = [0; 506];
            for (place, age) in data.chunks_mut(4).zip(ages) {
                place.copy_from_slice(&improvement(age, year).to_le_bytes());
            }
            file.extend(block(number + further, &data));
        }
    }
    file
}

/// B 2003 and one per cent in each year, by the history to 2006 and by the addition after it.
fn one_per_cent() -> Basis {
    level(2003, 10_000_000).with_history(&history(3, |_, _| 10_000_000)).expect("the history of three years")
}

fn refusal(number: u32, first: u64, second: u64) -> Refusal {
    Refusal { number, first, second }
}

// ---- what is answered

#[test]
fn improvements_up_to_the_foundation_year_are_the_historys() {
    let own = |age: u32, year: u32| (1_000 * age + year) as i32 - 100_000;
    let basis = level(2003, 5_000_000).with_history(&history(3, own)).expect("the history of three years");
    for age in [20, 21, 84, 85, 86, 87, 149, 150] {
        assert_eq!(basis.improvement(age, 2003), Err(refusal(7, 2003, 0)));
        for year in 2004..=2006 {
            assert_eq!(basis.improvement(age, year), Ok(own(age, year).into()), "age {age}, year {year}");
        }
        assert_eq!(basis.improvement(age, 2007), Ok(5_000_000));
    }
}

#[test]
fn factors_run_through_both_kinds_of_improvement() {
    let basis = one_per_cent();
    let factors = [UNIT, 990_000_000, 980_100_000, 970_299_000, 960_596_010];
    for (year, factor) in (2003..).zip(factors) {
        assert_eq!(basis.factor(60, year), Ok(factor));
        assert_eq!(basis.rate(60, year), Ok((factor + 5) / 10));
    }
    assert_eq!(basis.factor(60, 2002), Err(refusal(7, 2002, 0)));
}

#[test]
fn every_value_of_a_life_is_lent_the_history() {
    let basis = one_per_cent();
    // Of one 0.9 are left after the first year, and 0.901 of them after the next: by the cohort it is a year later.
    assert_eq!(basis.survivorship(Kind::Period, 148, 2, 2003), Ok(810_000_000));
    assert_eq!(basis.survivorship(Kind::Cohort, 148, 2, 2003), Ok(810_900_000));
    assert_eq!(basis.expectation(Kind::Period, 148, 0, 2003), Ok(2_210_000_000));
    assert_eq!(basis.expectation(Kind::Cohort, 148, 0, 2003), Ok(2_210_900_000));
    assert_eq!(basis.annuity(Kind::Period, 148, 0, 2004), Ok(2_712_801_000));
    assert_eq!(basis.annuity(Kind::Cohort, 148, 0, 2003), Ok(2_710_900_000));

    let question = Question { age: 148, deferment: 0, year: 2003 };
    let results = Results::from([2_210_000_000, 2_210_900_000, 2_710_000_000, 2_710_900_000]);
    assert_eq!(basis.small_set(&[question; 6]), Ok([Ok(results); 6]));
    assert_eq!(basis.value(&[question; 120]), Ok(vec![Ok(results); 120]));

    let steps: Result<Vec<Standing>, Refusal> = basis.lifeline(148, 2003).expect("B may be asked").collect();
    let after = [(149, 2004, 900_000_000), (150, 2005, 810_900_000)];
    assert_eq!(steps, Ok(after.map(|(age, year, survivors)| Standing { age, year, survivors }).to_vec()));
}

#[test]
fn a_factor_may_be_refused_in_the_years_of_the_history() {
    let basis = level(2002, 0).with_history(&history(4, |_, _| -500_000_000)).expect("the limit itself stands");
    assert_eq!(basis.factor(20, 2005), Ok(3_375_000_000));
    assert_eq!(basis.factor(20, 2006), Err(refusal(10, 20, 2006)));
}

#[test]
fn the_short_form_keeps_the_history() {
    let basis = one_per_cent();
    let short = basis.short_form(20_000_000).expect("a rate within its limits");
    assert_eq!(short.history(), basis.history());
    assert_eq!(short.improvement(60, 2006), Ok(10_000_000));
    assert_ne!(short, basis);
}

// ---- what is refused

#[test]
fn without_its_history_a_basis_answers_nothing() {
    let basis = level(2003, 0);
    assert_eq!(basis.history_needed(), 3 * HISTORY_YEAR);
    assert_eq!(Basis::from_file(&basis.to_file()), Ok(basis.clone()));
    assert!(basis.short_form(0).is_ok());

    let refused = refusal(13, 3_072, 0);
    assert_eq!(refused.to_string(), "refused 13: history not 1,024 bytes for each year from B + 1 to F (needed 3072)");
    assert_eq!(basis.improvement(19, 2130), Err(refused));
    assert_eq!(basis.factor(60, 2010), Err(refused));
    assert_eq!(basis.rate(60, 2010), Err(refused));
    for kind in [Kind::Period, Kind::Cohort] {
        assert_eq!(basis.survivorship(kind, 60, 0, 2010), Err(refused));
        assert_eq!(basis.expectation(kind, 60, 0, 2010), Err(refused));
        assert_eq!(basis.annuity(kind, 60, 0, 2010), Err(refused));
    }
    assert_eq!(basis.lifeline(60, 2010).map(|line| line.standing()), Err(refused));

    let question = Question { age: 60, deferment: 0, year: 2010 };
    assert_eq!(basis.small_set(&[question; 6]), Err(refused));
    assert_eq!(basis.value(&[question]), Err(refused));
    let mut records = [Record::new(question); GRID];
    assert_eq!(basis.grid(&mut records), Err(refused));
    assert_eq!(records, [Record::new(question); GRID]);
    assert_eq!(basis.grid(&mut records[1..]), Err(refusal(11, 119, 0)));
}

#[test]
fn a_history_is_checked_when_it_is_given() {
    let good = history(3, |_, _| 0);
    let refused = |file: &[u8]| level(2003, 0).with_history(file).expect_err("no history of three years");
    let longer = [&good[..], &[0]].concat();
    for file in [&good[..0], &good[1..], &good[..2_048], &longer[..]] {
        assert_eq!(refused(file), refusal(13, 3_072, 0));
    }
    let mut file = good.clone();
    file[3 * 512 + 100] = 1;
    assert_eq!(refused(&file), refusal(2, 3, 0));
    // The blocks of one year, each whole, and in the other's place.
    let swapped = [&good[..1_024], &good[1_536..2_048], &good[1_024..1_536], &good[2_048..]].concat();
    assert_eq!(refused(&swapped), refusal(3, 2, 0));
    // The first byte after the ages to 85 of the second year; offsets are those of the joined data.
    let mut data = [0; 506];
    data[4 * 66] = 1;
    let unclean = [&good[..1_024], &block(2, &data)[..], &good[1_536..]].concat();
    assert_eq!(refused(&unclean), refusal(4, 1_012 + 264, 0));
    let beyond = |rate| history(3, move |age, year| if (age, year) == (87, 2006) { rate } else { 0 });
    assert_eq!(refused(&beyond(500_000_001)), refusal(5, 2 * 1_012 + 506 + 4, 0));
    assert_eq!(refused(&beyond(-500_000_001)), refusal(5, 2 * 1_012 + 506 + 4, 0));
    assert!(level(2003, 0).with_history(&beyond(500_000_000)).is_ok());
}

#[test]
fn with_the_base_year_at_the_foundation_year_there_is_no_history() {
    for base_year in [2006, 2010] {
        let basis = level(base_year, 0);
        assert_eq!(basis.history_needed(), 0);
        assert_eq!(basis.clone().with_history(&[]), Ok(basis.clone()));
        assert_eq!(basis.with_history(&history(1, |_, _| 0)), Err(refusal(13, 0, 0)));
    }
}

#[test]
fn a_basis_is_opened_with_its_history() {
    let folder = PathBuf::from(env!("CARGO_TARGET_TMPDIR"));
    let [basis, whole, longer] = ["older.bin", "history.bin", "longer.bin"].map(|name| folder.join(name));
    let file = history(3, |_, _| 10_000_000);
    fs::write(&basis, level(2003, 10_000_000).to_file()).expect("the folder of the tests can be written to");
    fs::write(&whole, &file).expect("likewise");
    fs::write(&longer, [&file[..], &file[..]].concat()).expect("likewise");

    assert_eq!(Basis::open_with_history(&basis, &whole).expect("both are accepted"), one_per_cent());
    let opened = Basis::open_with_history(&basis, &longer);
    assert!(matches!(opened, Err(OpenError::Refused(Refusal { number: 13, first: 3_072, second: 0 }))));
    assert!(matches!(Basis::open_with_history(&basis, folder.join("none.bin")), Err(OpenError::Io(_))));
}
