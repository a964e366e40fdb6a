//! The year sweep against the direct engine: every factor of every year, grids worked by hand, and grids at random.
use super::basis::Basis;
use super::layout::*;
use super::refusal::Refusal;
use super::sets::{GRID, Record, direct_grid, grid};
use super::sweep::Sweep;
use crate::bases::draft::Component::{Age, BirthYear};
use crate::bases::histories::history_of;
use crate::bases::{Draft, histories, valid};
use crate::compare::inputs;
use crate::random::Random;

/// The last year that an answer can come to: that of a life of 20 in 2130 at 150.
const LAST_SWEPT: u32 = 2260;

// ---- factors

/// Compares every age in every year through 2260, and hands back how many ages were refused in the end. An age stands
/// from the year on in which its birth year is 2110.
fn refused_ages(run: &[u8], history: &[u8]) -> usize {
    let basis = Basis::accept(run, history).unwrap();
    let mut sweep = Sweep::start(basis);
    let ages = FIRST_AGE..=LAST_AGE;
    loop {
        for age in ages.clone() {
            let direct = basis.factor(age, sweep.year().min(2110 + age));
            assert_eq!(sweep.factor(age), direct, "age {age} in {}", sweep.year());
        }
        if sweep.year() == LAST_SWEPT {
            return ages.filter(|&age| sweep.factor(age).is_err()).count();
        }
        sweep.step();
    }
}

#[test]
fn a_sweep_has_the_direct_factors() {
    for (foundation_year, base_year) in [(2006, 2006), (2006, 2010), (2006, 2000), (2080, 1992), (1992, 2130)] {
        let draft = Draft::benchmark_from(foundation_year, base_year);
        assert_eq!(refused_ages(&draft.run, &histories::benchmark(draft.history_years())), 0);
    }
}

#[test]
fn a_sweep_goes_on_where_an_age_is_refused() {
    let mut random = Random::new(1);
    for kind in [valid::brink, valid::fourfold, valid::extreme, valid::anywhere, valid::slow, valid::at_limits] {
        for _ in 0..5 {
            let draft = kind(&mut random);
            refused_ages(&draft.run, &histories::brink(&mut random, draft.history_years()));
        }
    }
    let mut some_refused = 0;
    for _ in 0..20 {
        let draft = valid::uneven(&mut random);
        let refused = refused_ages(&draft.run, &histories::modest(&mut random, draft.history_years()));
        some_refused += u32::from((1..AGES).contains(&refused));
    }
    assert!(some_refused > 10, "{some_refused} of 20");
}

/// B 2130, and one per cent a year: 20 does not move at all, 21 for a year, 22 for two, and 149 and 150 to the end.
#[test]
fn an_age_stands_where_its_birth_year_would_be_after_2110() {
    let mut draft = Draft::plain(2006, 2130);
    draft.set_addition(10_000_000);
    let mut sweep = Sweep::start(Basis::accept(&draft.run, &[]).unwrap());
    let factors = |sweep: &Sweep, ages: [u32; 4]| ages.map(|age| sweep.factor(age).unwrap());
    let [none, one, two, three] = [1_000_000_000, 990_000_000, 980_100_000, 970_299_000];
    for wanted in [[none; 4], [none, one, one, one], [none, one, two, two], [none, one, two, three]] {
        assert_eq!(factors(&sweep, [20, 21, 22, 23]), wanted);
        sweep.step();
    }
    while sweep.year() < LAST_SWEPT + 2 {
        let [before, last_before, ..] = factors(&sweep, [149, 150, 20, 20]);
        sweep.step();
        let [after, last_after, ..] = factors(&sweep, [149, 150, 20, 20]);
        let year = sweep.year();
        assert_eq!((after < before, last_after < last_before), (year <= 2259, year <= 2260), "in {year}");
        assert_eq!(factors(&sweep, [20, 21, 22, 23]), [none, one, two, three]);
    }
}

/// 1.5 a year from 2130 on is beyond 4 in 2134: 23 stands before it, and from 24 on an age is refused and stays so.
#[test]
fn a_refusal_after_2130_stays() {
    let mut draft = Draft::plain(2006, 2130);
    draft.set_addition(-100_000_000);
    (0..AGES).for_each(|index| draft.set_component(Age, index, [0, -200_000_000], 20, 50));
    (0..BIRTH_YEARS).for_each(|index| draft.set_component(BirthYear, index, [0, -200_000_000], 20, 50));
    let mut sweep = Sweep::start(Basis::accept(&draft.run, &[]).unwrap());
    (2130..2133).for_each(|_| sweep.step());
    assert!((23..=150).all(|age| sweep.factor(age) == Ok(3_375_000_000)));
    while sweep.year() < LAST_SWEPT {
        sweep.step();
        assert!((24..=150).all(|age| sweep.factor(age) == Err(Refusal::factor(age, 2134))));
        let stood = [20, 21, 22, 23].map(|age| sweep.factor(age));
        assert_eq!(stood, [1_000_000_000, 1_500_000_000, 2_250_000_000, 3_375_000_000].map(Ok));
    }
}

// ---- by hand

/// F and B 2006. At 60 the factor grows by 3 per cent a year, to 4 U and more in 2053; at 70 by 20 per cent, in 2014.
/// At 80 the improvement of 2007 is 587,500,000.
fn three_refused() -> Draft {
    let mut draft = Draft::plain(2006, 2006);
    (0..AGES).for_each(|index| draft.set_base_rate(index, 10_000_000));
    draft.set_component(Age, 40, [-30_000_000; 2], 20, 50);
    draft.set_component(Age, 50, [-200_000_000; 2], 20, 50);
    draft.set_component(Age, 60, [200_000_000, -200_000_000], 4, 150);
    draft
}

const AT_60: Refusal = Refusal::factor(60, 2053);
const AT_70: Refusal = Refusal::factor(70, 2014);
const AT_80: Refusal = Refusal::improvement(80, 2007);

fn asked(age: u32, deferment: u32, year: u32) -> Record {
    Record { age, deferment, year, refusal: 99, results: [7; 4], first: 7, second: 7 }
}

/// What a grid of this record alone, in any place, makes of it: its refusal or `None`.
fn refusal_of(run: &[u8], history: &[u8], record: Record) -> Option<Refusal> {
    let mut records = [record; GRID];
    assert_eq!(grid(run, history, &mut records), Ok(()));
    assert!(records.iter().all(|other| *other == records[0]));
    let Record { refusal: number, first, second, .. } = records[0];
    (number != 0).then_some(Refusal { number, first, second })
}

#[test]
fn each_record_has_the_first_refusal_on_its_own_way() {
    let run = three_refused().run;
    let at = |age, deferment, year| refusal_of(&run, &[], asked(age, deferment, year));
    // in the base year nothing is refused, unless a cohort comes to it later
    assert_eq!([(80, 0), (81, 0), (80, 70)].map(|(age, deferment)| at(age, deferment, 2006)), [None; 3]);
    assert_eq!([79, 71].map(|age| at(age, 0, 2006)), [Some(AT_80); 2]);
    // 63 in 2006 is 70 in 2013, the year before that is refused
    assert_eq!([at(63, 0, 2006), at(62, 0, 2006)], [AT_80, AT_70].map(Some));
    // the youngest age of a period comes first, though the others were refused in earlier years
    assert_eq!([60, 61, 71, 81].map(|age| at(age, 0, 2053)), [Some(AT_60), Some(AT_70), Some(AT_80), None]);
    assert_eq!([20, 60].map(|age| at(age, 0, 2130)), [Some(AT_60); 2]);
    assert_eq!(at(20, 0, 2052), Some(AT_70));
    assert_eq!(at(20, 0, 2013), Some(AT_80));
}

/// The expectation of a deferred record starts at the later age and is worked out before the annuity.
#[test]
fn a_deferred_record_starts_with_its_expectations() {
    let run = three_refused().run;
    let at = |age, deferment, year| refusal_of(&run, &[], asked(age, deferment, year));
    assert_eq!([at(60, 0, 2060), at(60, 1, 2060), at(60, 11, 2060)], [AT_60, AT_70, AT_80].map(Some));
    // beyond 80 only the annuities need them: the period's first, and of those 60 before 70 and 80
    assert_eq!([at(60, 21, 2060), at(60, 21, 2050), at(60, 21, 2010)], [AT_60, AT_70, AT_80].map(Some));
    // the period annuity of the base year is answered, and the cohort's is not
    assert_eq!([at(79, 2, 2006), at(80, 1, 2006)], [Some(AT_80), None]);
    // a period expectation is of the year after the deferment: at 60 of 2053, at 61 of 2054
    assert_eq!([at(20, 40, 2013), at(20, 41, 2013)], [AT_60, AT_70].map(Some));
}

#[test]
fn a_question_is_refused_before_its_work() {
    let run = three_refused().run;
    let at = |age, deferment, year| refusal_of(&run, &[], asked(age, deferment, year));
    assert_eq!(at(19, 200, 2005), Some(Refusal::age(19)));
    assert_eq!(at(151, 0, 2130), Some(Refusal::age(151)));
    assert_eq!(at(20, 131, 2131), Some(Refusal::deferment(20, 131)));
    assert_eq!(at(20, u32::MAX, 2130), Some(Refusal::deferment(20, u32::MAX)));
    assert_eq!([2005, 2131].map(|year| at(20, 0, year)), [2005, 2131].map(|year| Some(Refusal::year(year))));
    assert_eq!([at(150, 0, 2130), at(81, 69, 2130)], [None; 2]);
}

/// 1.5 a year is beyond 4 in the fourth, which is one of the history; 1.5 thrice and 1.2 are beyond it after the history.
#[test]
fn refusals_in_the_years_of_a_history_and_after() {
    let mut draft = Draft::plain(2006, 2002);
    draft.set_component(Age, 50, [-200_000_000; 2], 20, 50);
    let history = history_of(4, |year, age| match age {
        60 => -500_000_000,
        70 if year > 0 => -500_000_000,
        _ => 0,
    });
    let at = |age, year| refusal_of(&draft.run, &history, asked(age, 0, year));
    let (at_60, at_70) = (Refusal::factor(60, 2006), Refusal::factor(70, 2007));
    assert_eq!([2005, 2006, 2007].map(|year| at(60, year)), [at_70, at_60, at_60].map(Some));
    assert_eq!([61, 70, 71].map(|age| at(age, 2007)), [Some(at_70), Some(at_70), None]);
    // 70 in 2006 and before is answered, 60 in 2005 and before
    assert_eq!([at(70, 2006), at(69, 2006), at(66, 2002)], [None, Some(at_70), None]);
}

#[test]
fn records_beyond_the_grid_are_kept() {
    let run = Draft::benchmark().run;
    let mut records = vec![asked(65, 0, 2010); GRID + 1];
    assert_eq!(grid(&run, &[], &mut records), Ok(()));
    assert_eq!(records[GRID], asked(65, 0, 2010));
    assert_eq!(records[0], records[GRID - 1]);
    assert_eq!((records[0].refusal, records[0].first, records[0].second), (0, 0, 0));
}

// ---- at random

/// Records of any ages, years and deferments in any order, answered by both.
fn compare(random: &mut Random, run: &[u8], history: &[u8]) -> Vec<Record> {
    let mut records: Vec<Record> = (0..GRID).map(|_| inputs::record(random, run)).collect();
    let mut direct = records.clone();
    assert_eq!(grid(run, history, &mut records), direct_grid(run, history, &mut direct));
    for (record, wanted) in records.iter().zip(&direct) {
        assert_eq!(record, wanted);
    }
    records
}

#[test]
fn grids_of_every_kind_of_basis() {
    let mut random = Random::new(2);
    let mut met = [0; 12];
    let kinds =
        [valid::modest, valid::anywhere, valid::extreme, valid::brink, valid::uneven, valid::slow, valid::at_limits];
    for kind in kinds {
        for _ in 0..12 {
            let draft = kind(&mut random);
            let history = histories::modest(&mut random, draft.history_years());
            compare(&mut random, &draft.run, &history).iter().for_each(|record| met[record.refusal as usize] += 1);
        }
    }
    assert!([0, 6, 7, 8, 9, 10].iter().all(|&outcome| met[outcome] > 0), "{met:?}");
}

/// The records of every age in a year, deferred by sevens and to each of the last ages.
fn of_every_age(year: u32) -> Vec<Record> {
    let deferments = |age: u32| (0..=150 - age).filter(move |deferment| deferment % 7 == 0 || age + deferment > 147);
    (20..=150).flat_map(|age| deferments(age).map(move |deferment| asked(age, deferment, year))).collect()
}

/// In the last years that may be asked about, on bases of which some ages are refused later.
#[test]
fn grids_about_2130() {
    let mut random = Random::new(4);
    let mut refused_later = 0;
    for kind in [valid::modest, valid::slow, valid::at_limits] {
        let mut draft = kind(&mut random);
        for (base_year, year) in [(2100, 2129), (2100, 2130), (2130, 2130)] {
            draft.set_years(2006, base_year);
            for records in of_every_age(year).chunks_exact_mut(GRID) {
                let mut direct = records.to_vec();
                assert_eq!(grid(&draft.run, &[], records), Ok(()));
                assert_eq!(direct_grid(&draft.run, &[], &mut direct), Ok(()));
                assert_eq!(records, direct);
                refused_later += records.iter().filter(|record| record.second > 2130).count();
            }
        }
    }
    assert!(refused_later > 100, "{refused_later}");
}

/// Where every record has another age of its way refused in an earlier year, the order of the work decides.
#[test]
fn grids_of_the_basis_with_three_refused() {
    let mut random = Random::new(3);
    let mut draft = three_refused();
    let mut met = [0; 3];
    for base_year in [2006, 2007, 2013, 2040] {
        draft.set_years(2006, base_year);
        let answered = compare(&mut random, &draft.run, &[]);
        for (place, age) in [60, 70, 80].into_iter().enumerate() {
            met[place] += answered.iter().filter(|record| record.refusal > 8 && record.first == age).count();
        }
    }
    assert!(met.iter().all(|&count| count > 0), "{met:?}");
}

#[test]
fn a_refused_basis_or_list_refuses_both_alike() {
    let run = Draft::benchmark().run;
    let mut records = [asked(65, 0, 2010); GRID];
    for fill in [grid, direct_grid] {
        assert_eq!(fill(&run[1..], &[], &mut records[1..]), Err(Refusal::output(GRID)));
        assert_eq!(fill(&run[1..], &[], &mut records), Err(Refusal::length()));
        assert_eq!(fill(&run, &[0], &mut records), Err(Refusal::history_length(0)));
        assert_eq!(records, [asked(65, 0, 2010); GRID]);
    }
}
