//! Bases older than the foundation year: figures worked by hand, and the order of a history's refusals.
use super::basis::Basis;
use super::enquiries::*;
use super::layout::*;
use super::lifeline::{self, Position, Step};
use super::refusal::Refusal;
use super::sets::{GRID, Question, Record, grid, point, small_set};
use super::units::UNIT;
use super::valuation::Kind;
use crate::bases::Draft;
use crate::bases::draft::Component::Age;
use crate::bases::files::{file_of, resealed};
use crate::bases::histories::history_of;
use crate::random::Random;

/// B 2004 and F 2006, an addition of 5,000,000, and rates by age that say 20,000,000 throughout.
fn older() -> Draft {
    let mut draft = Draft::plain(2006, 2004);
    draft.set_addition(5_000_000);
    for index in 0..AGES {
        draft.set_base_rate(index, 100_000_000);
        draft.set_component(Age, index, [20_000_000; 2], 20, 50);
    }
    draft
}

/// Its history: 10,000,000 in either year at every age.
fn level() -> Vec<u8> {
    history_of(2, |_, _| 10_000_000)
}

// ---- figures

#[test]
fn factors_run_from_the_history_into_the_projection() {
    let (run, history) = (older().run, level());
    let at = |year| factor(&run, &history, 60, year);
    // 0.99, 0.99 twice, and from 2007 the 20,000,000 with the addition: 0.9801 x 0.975
    assert_eq!([2004, 2005, 2006, 2007].map(at), [UNIT, 990_000_000, 980_100_000, 955_597_500].map(Ok));
    assert_eq!(at(2003), Err(Refusal::year(2003)));
    assert_eq!(rate(&run, &history, 60, 2006), Ok(98_010_000));
}

#[test]
fn an_actual_improvement_takes_no_addition_and_the_foundation_year_is_the_history_s() {
    let (run, history) = (older().run, level());
    let at = |year| improvement(&run, &history, 60, year);
    assert_eq!([2005, 2006, 2007].map(at), [10_000_000, 10_000_000, 25_000_000].map(Ok));
}

#[test]
fn the_first_improvement_that_may_be_asked() {
    let at = |base_year: u16, year| {
        let draft = Draft::plain(2006, base_year);
        improvement(&draft.run, &history_of(draft.history_years(), |_, _| 7), 60, year)
    };
    assert_eq!([2003, 2004, 2005].map(|year| at(2004, year)), [Err(2003), Err(2004), Ok(7)].map(by_year));
    assert_eq!([2005, 2006, 2007].map(|year| at(2005, year)), [Err(2005), Ok(7), Ok(0)].map(by_year));
    assert_eq!([2005, 2006].map(|year| at(2006, year)), [Err(2005), Ok(0)].map(by_year));
    assert_eq!([2005, 2006, 2007].map(|year| at(2007, year)), [Err(2005), Ok(0), Ok(0)].map(by_year));
}

fn by_year(wanted: Result<i64, u32>) -> Result<i64, Refusal> {
    wanted.map_err(Refusal::year)
}

#[test]
fn each_year_and_age_has_its_own_place() {
    let run = Draft::plain(2080, 1992).run;
    let history = history_of(88, |year, age| 1_000 * year as i32 - age as i32);
    assert_eq!(history.len(), 90_112);
    for year in [1993, 1994, 2079, 2080] {
        for age in [20, 21, 85, 86, 149, 150] {
            let wanted = 1_000 * (i64::from(year) - 1993) - i64::from(age);
            assert_eq!(improvement(&run, &history, age, year), Ok(wanted), "age {age} year {year}");
        }
    }
}

#[test]
fn a_factor_above_four_in_a_year_of_the_history() {
    let run = Draft::plain(2010, 2000).run;
    let history = history_of(10, |_, _| -500_000_000);
    let at = |year| factor(&run, &history, 60, year);
    assert_eq!([2001, 2002, 2003].map(at), [1_500_000_000, 2_250_000_000, 3_375_000_000].map(Ok));
    assert_eq!([2004, 2010, 2130].map(at), [Err(Refusal::factor(60, 2004)); 3]);
    // the improvement itself is answered, at either limit
    assert_eq!(improvement(&run, &history, 60, 2010), Ok(-500_000_000));
    let other = history_of(10, |_, _| 500_000_000);
    assert_eq!(improvement(&run, &other, 60, 2001), Ok(500_000_000));
    assert_eq!(factor(&run, &other, 60, 2002), Ok(250_000_000));
}

#[test]
fn a_projected_improvement_beyond_its_limits_comes_after_the_history() {
    let mut draft = Draft::plain(2006, 2004);
    draft.set_component(Age, 40, [200_000_000, -200_000_000], 4, 150);
    let history = history_of(2, |_, _| 500_000_000);
    assert_eq!(factor(&draft.run, &history, 60, 2006), Ok(250_000_000));
    assert_eq!(factor(&draft.run, &history, 60, 2007), Err(Refusal::improvement(60, 2007)));
    let worse = history_of(2, |year, _| if year == 0 { 0 } else { -500_000_000 });
    assert_eq!(factor(&draft.run, &worse, 60, 2130), Err(Refusal::improvement(60, 2007)));
}

/// In 2006 every rate is 98,010,000: of U lives at 148 are left 901,990,000 and 813,585,960. From 2004 on a cohort meets
/// 100,000,000 and 99,000,000, which leave 900,000,000 and 810,900,000.
#[test]
fn values_use_the_history() {
    let (run, history) = (older().run, level());
    let basis = Basis::accept(&run, &history).unwrap();
    let at = |year| point(&basis, Question { age: 148, deferment: 0, year });
    assert_eq!(at(2006).unwrap()[0], 500_000_000 + 901_990_000 + 813_585_960);
    assert_eq!(at(2006).unwrap()[2], UNIT + 901_990_000 + 813_585_960);
    assert_eq!(at(2004).unwrap()[1], 500_000_000 + 900_000_000 + 810_900_000);
    assert_eq!(at(2004).unwrap()[3], UNIT + 900_000_000 + 810_900_000);
    assert_eq!(survivorship(&run, &history, Kind::Cohort, 148, 2, 2004), Ok(810_900_000));
    assert_eq!(survivorship(&run, &history, Kind::Period, 148, 2, 2006), Ok(813_585_960));
}

// ---- orders

#[test]
fn the_run_alone_does_not_ask_for_a_history() {
    let run = older().run;
    assert_eq!(check_basis(&run), Ok(()));
    let mut file = [0; 4608];
    assert_eq!(super::file::write_basis(&run, &mut file), Ok(()));
    let mut back = [0; 4554];
    assert_eq!(super::file::read_basis(&file, &mut back), Ok(()));
    assert_eq!(super::short_form::short_form(&run, 0, &mut back), Ok(()));
}

#[test]
fn lengths() {
    let run = older().run;
    let history = level();
    let asked = |history: &[u8]| rate(&run, history, 60, 2010);
    assert!(asked(&history).is_ok());
    for length in [0, 1, 1024, 2047] {
        assert_eq!(asked(&history[..length]), Err(Refusal::history_length(2048)));
    }
    assert_eq!(asked(&history_of(3, |_, _| 0)), Err(Refusal::history_length(2048)));
    // where none is needed, any at all is too long
    for base_year in [2006, 2007, 2130] {
        let run = Draft::plain(2006, base_year).run;
        assert_eq!(rate(&run, &history, 60, 2130), Err(Refusal::history_length(0)));
        assert_eq!(rate(&run, &[0], 60, 2130), Err(Refusal::history_length(0)));
        assert!(rate(&run, &[], 60, 2130).is_ok());
    }
    assert_eq!(rate(&Draft::plain(2080, 1992).run, &[], 60, 2130), Err(Refusal::history_length(90_112)));
}

/// A history of two years with these bytes in its joined data, and every check right.
fn with_bytes(changes: &[(usize, u8)]) -> Vec<u8> {
    let history = level();
    let mut joined: Vec<u8> = history.chunks(BLOCK_LENGTH).flat_map(|block| block[2..508].to_vec()).collect();
    changes.iter().for_each(|&(place, byte)| joined[place] = byte);
    file_of(&joined)
}

fn asked(history: &[u8]) -> Result<u64, Refusal> {
    rate(&older().run, history, 60, 2010)
}

#[test]
fn blocks_ascend_and_the_check_comes_before_the_number() {
    let good = level();
    let mut history = good.clone();
    history[3 * BLOCK_LENGTH + 100] ^= 1;
    assert_eq!(asked(&history), Err(Refusal::block_check(3)));
    // block 1 in the place of block 0, whose check is right
    history[..BLOCK_LENGTH].copy_from_slice(&good[BLOCK_LENGTH..2 * BLOCK_LENGTH]);
    assert_eq!(asked(&history), Err(Refusal::block_number(0)));
    history[508] ^= 1;
    assert_eq!(asked(&history), Err(Refusal::block_check(0)));
    // a history that goes on with block numbers from 0 in its second year
    let twice = [&good[..HISTORY_YEAR], &good[..HISTORY_YEAR]].concat();
    assert_eq!(asked(&twice), Err(Refusal::block_number(2)));
    // the number has two bytes
    let mut history = good.clone();
    resealed(&mut Random::new(1), &mut history[3 * BLOCK_LENGTH..], |_, block| block[1] = 1);
    assert_eq!(asked(&history), Err(Refusal::block_number(3)));
}

#[test]
fn every_4_comes_before_every_5_and_all_after_the_blocks() {
    // 66 numbers in the first block of a year, 65 in the second
    for place in [264, 505, 766, 1011, 1276, 1517, 1778, 2023] {
        assert_eq!(asked(&with_bytes(&[(place, 1)])), Err(Refusal::mark(place)));
    }
    // a number's top byte, by which it is beyond the limits either way
    for (place, offset) in [(3, 0), (263, 260), (509, 506), (765, 762), (1015, 1012), (1777, 1774)] {
        assert_eq!(asked(&with_bytes(&[(place, 0x7f)])), Err(Refusal::field(offset)));
        assert_eq!(asked(&with_bytes(&[(place, 0x80)])), Err(Refusal::field(offset)));
    }
    assert_eq!(asked(&with_bytes(&[(3, 0x7f), (2023, 1)])), Err(Refusal::mark(2023)));
    assert_eq!(asked(&with_bytes(&[(509, 0x7f), (1015, 0x7f)])), Err(Refusal::field(506)));
    assert_eq!(asked(&with_bytes(&[(300, 1), (301, 1), (800, 1)])), Err(Refusal::mark(300)));
    let mut history = with_bytes(&[(3, 0x7f), (264, 1)]);
    history[4 * BLOCK_LENGTH - 1] ^= 1;
    assert_eq!(asked(&history), Err(Refusal::block_check(3)));
}

#[test]
fn the_limits_of_an_actual_improvement() {
    let at = |improvement| asked(&history_of(2, |year, age| if (year, age) == (1, 150) { improvement } else { 0 }));
    assert!([-500_000_000, 500_000_000].map(at).iter().all(Result::is_ok));
    let refused = Err(Refusal::field(3 * 506 + 4 * 64));
    assert_eq!([-500_000_001, 500_000_001, i32::MIN, i32::MAX].map(at), [refused; 4]);
}

#[test]
fn the_run_comes_first_and_the_question_last() {
    let mut run = older().run;
    let (short, wrong) = (&level()[..2047], with_bytes(&[(264, 1)]));
    for history in [short, &wrong] {
        let refusal = Basis::accept(&run, history).err().unwrap();
        assert_eq!(improvement(&run, history, 19, 0), Err(refusal));
        assert_eq!(factor(&run, history, 19, 0), Err(refusal));
        assert_eq!(rate(&run, history, 19, 0), Err(refusal));
        for ask in [survivorship, expectation, annuity] {
            assert_eq!(ask(&run, history, Kind::Cohort, 19, 200, 0), Err(refusal));
        }
        assert_eq!(lifeline::start(&run, history, 19, 0), Err(refusal));
        let position = Position { age: 0, year: 0, survivors: u64::MAX };
        assert_eq!(lifeline::step(&run, history, position), Err(refusal));
    }
    run[4553] = 151;
    assert_eq!(improvement(&run, short, 19, 0), Err(Refusal::field(4553)));
    assert_eq!(improvement(&run[1..], short, 19, 0), Err(Refusal::length()));
}

#[test]
fn a_refused_history_refuses_a_set_as_a_whole() {
    let (run, history) = (older().run, level());
    let blank = Record { age: 150, deferment: 0, year: 2004, refusal: 9, results: [1; 4], first: 1, second: 1 };
    let mut records = vec![blank; GRID];
    assert_eq!(grid(&run, &history[1..], &mut records[1..]), Err(Refusal::output(119)));
    assert_eq!(grid(&run, &history[1..], &mut records), Err(Refusal::history_length(2048)));
    assert_eq!(records, vec![blank; GRID]);
    let questions = [Question { age: 150, deferment: 0, year: 2004 }; 6];
    assert_eq!(small_set(&run, &history[1..], &questions), Err(Refusal::history_length(2048)));
    let answered = [UNIT / 2, UNIT / 2, UNIT, UNIT];
    assert_eq!(grid(&run, &history, &mut records), Ok(()));
    assert_eq!(records[GRID - 1].results, answered);
    assert_eq!(small_set(&run, &history, &questions), Ok([Ok(answered); 6]));
}

#[test]
fn a_lifeline_is_lent_a_history_at_each_step() {
    let run = older().run;
    let position = lifeline::start(&run, &level(), 60, 2004).unwrap();
    assert_eq!(position, Position { age: 60, year: 2004, survivors: UNIT });
    let position = Position { age: 61, year: 2005, survivors: 900_000_000 };
    assert_eq!(
        lifeline::step(&run, &level(), Position { age: 60, year: 2004, survivors: UNIT }),
        Ok(Step::On(position))
    );
    // 0.901 of them by the one history, 0.9 by another
    let after = |survivors| Ok(Step::On(Position { age: 62, year: 2006, survivors }));
    assert_eq!(lifeline::step(&run, &level(), position), after(810_900_000));
    assert_eq!(lifeline::step(&run, &history_of(2, |_, _| 0), position), after(810_000_000));
    assert_eq!(lifeline::step(&run, &[], position), Err(Refusal::history_length(2048)));
    let early = Position { year: 2003, ..position };
    assert_eq!(lifeline::step(&run, &level(), early), Err(Refusal::year(2003)));
}
