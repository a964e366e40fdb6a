//! The order of refusals, and that a refused call changes nothing; the runs are of the old form.
use super::enquiries::*;
use super::file::{read_basis, write_basis};
use super::layout::*;
use super::lifeline::{self, Position, Step};
use super::refusal::Refusal;
use super::sets::{GRID, Question, Record, grid, small_set};
use super::short_form::short_form;
use super::units::UNIT;
use super::valuation::Kind;
use crate::bases::{Draft, files};

/// The history of a basis that needs none.
const NONE: &[u8] = &[];

#[test]
fn checks_of_a_run() {
    let mut run = Draft::plain(2006, 2006).run;
    assert_eq!(check_basis(&run), Ok(()));
    assert_eq!(check_basis(&run[..4553]), Err(Refusal::length()));
    run[4553] = 151;
    run[FIRST_TABLE + 4..][..4].copy_from_slice(&(UNIT as i32 + 1).to_le_bytes());
    assert_eq!(check_basis(&run), Err(Refusal::field(34)));
    run[29] = 1;
    assert_eq!(check_basis(&run), Err(Refusal::mark(29)));
    run[3] = b'2';
    assert_eq!(check_basis(&run), Err(Refusal::mark(3)));
}

#[test]
fn the_limits_of_the_years() {
    let checked = |foundation_year, base_year| check_basis(&Draft::plain(foundation_year, base_year).run);
    for (foundation_year, base_year) in [(1992, 1992), (2006, 2005), (2080, 1992), (1992, 2130), (2080, 2130)] {
        assert_eq!(checked(foundation_year, base_year), Ok(()));
    }
    assert_eq!([1991, 2131].map(|base_year| checked(2006, base_year)), [Err(Refusal::field(6)); 2]);
    assert_eq!([1991, 2081].map(|foundation_year| checked(foundation_year, 1991)), [Err(Refusal::field(4)); 2]);
}

#[test]
fn the_limits_of_the_rate_of_discount() {
    let mut draft = Draft::plain(2006, 2006);
    let mut checked = |rate| {
        draft.set_discount_rate(rate);
        check_basis(&draft.run)
    };
    assert_eq!([-10_000_000, -1, 0, 200_000_000].map(&mut checked), [Ok(()); 4]);
    assert_eq!([-10_000_001, 200_000_001, i32::MIN].map(&mut checked), [Err(Refusal::field(12)); 3]);
}

#[test]
fn questions() {
    let run = Draft::plain(2006, 2010).run;
    let asked = |age, deferment, year| expectation(&run, NONE, Kind::Cohort, age, deferment, year);
    assert_eq!(asked(19, u32::MAX, 0), Err(Refusal::age(19)));
    assert_eq!(asked(u32::MAX, 0, 0), Err(Refusal::age(u32::MAX)));
    assert_eq!(asked(20, u32::MAX, 0), Err(Refusal::deferment(20, u32::MAX)));
    assert_eq!(asked(20, 130, 2009), Err(Refusal::year(2009)));
    assert_eq!(asked(20, 130, 2130), Ok(UNIT / 2));
    assert_eq!(improvement(&run, NONE, 20, 2006), Ok(0));
    assert_eq!(improvement(&run, NONE, 20, 2005), Err(Refusal::year(2005)));
    assert_eq!(rate(&run, NONE, 20, 2009), Err(Refusal::year(2009)));
}

#[test]
fn files_are_read_and_written() {
    let run = Draft::benchmark().run;
    let mut file = [7; 4609];
    assert_eq!(write_basis(&run, &mut file), Ok(()));
    assert_eq!(file[..4608], files::file_of(&run));
    assert_eq!(file[4608], 7);
    let mut back = [7; 4555];
    assert_eq!(read_basis(&file[..4608], &mut back), Ok(()));
    assert_eq!(back[..4554], run);
    assert_eq!(back[4554], 7);
    assert_eq!(read_basis(&file, &mut back[..4553]), Err(Refusal::output(4554)));
    assert_eq!(read_basis(&file, &mut back), Err(Refusal::length()));
    assert_eq!(write_basis(&run[1..], &mut file[..4607]), Err(Refusal::output(4608)));
}

#[test]
fn blocks_ascend() {
    let good = files::file_of(&Draft::benchmark().run);
    let mut file = good.clone();
    let mut out = [9; 4554];
    file[BLOCK_LENGTH + 100] ^= 1;
    file[..BLOCK_LENGTH].copy_from_slice(&good[BLOCK_LENGTH..2 * BLOCK_LENGTH]);
    assert_eq!(read_basis(&file, &mut out), Err(Refusal::block_number(0)));
    file[..BLOCK_LENGTH].copy_from_slice(&good[..BLOCK_LENGTH]);
    assert_eq!(read_basis(&file, &mut out), Err(Refusal::block_check(1)));
    assert_eq!(out, [9; 4554]);
}

#[test]
fn the_short_form_checks_its_rate_last() {
    let mut run = Draft::benchmark().run;
    let mut out = [9; 4554];
    assert_eq!(short_form(&run, 200_000_001, &mut out), Err(Refusal::field(1078)));
    assert_eq!(short_form(&run, 200_000_001, &mut out[1..]), Err(Refusal::output(4554)));
    run[4016] = 0;
    assert_eq!(short_form(&run, i32::MIN, &mut out), Err(Refusal::field(4016)));
    assert_eq!(out, [9; 4554]);
    run[4016] = 1;
    assert_eq!(short_form(&run, -200_000_000, &mut out), Ok(()));
    assert_eq!(check_basis(&out), Ok(()));
    assert_eq!(out[..1078], run[..1078]);
    assert_eq!(out[1864..2940], run[1864..2940]);
}

#[test]
fn sets() {
    let run = Draft::plain(2006, 2006).run;
    let blank = Record { age: 150, deferment: 0, year: 2006, refusal: 9, results: [1; 4], first: 1, second: 1 };
    let mut records = vec![blank; GRID + 1];
    records[1].age = 151;
    assert_eq!(grid(&run[1..], NONE, &mut records[..GRID - 1]), Err(Refusal::output(119)));
    assert_eq!(grid(&run[1..], NONE, &mut records), Err(Refusal::length()));
    assert_eq!(records[0], blank);
    assert_eq!(grid(&run, NONE, &mut records), Ok(()));
    let answered = [UNIT / 2, UNIT / 2, UNIT, UNIT];
    assert_eq!(records[0], Record { refusal: 0, results: answered, first: 0, second: 0, ..blank });
    assert_eq!(records[1], Record { age: 151, refusal: 6, results: [0; 4], first: 151, second: 0, ..blank });
    assert_eq!(records[GRID], blank);
    let mut questions = [Question { age: 150, deferment: 0, year: 2006 }; 6];
    questions[5].year = 2131;
    let set = small_set(&run, NONE, &questions).unwrap();
    assert_eq!((set[0], set[5]), (Ok(answered), Err(Refusal::year(2131))));
}

#[test]
fn a_lifeline() {
    let run = Draft::plain(2006, 2006).run;
    let stepped = |age, year, survivors| lifeline::step(&run, NONE, Position { age, year, survivors });
    assert_eq!(lifeline::start(&run, NONE, 20, 2130), Ok(Position { age: 20, year: 2130, survivors: UNIT }));
    assert_eq!(lifeline::start(&run, NONE, 20, 2131), Err(Refusal::year(2131)));
    assert_eq!(stepped(149, 2259, 5), Ok(Step::On(Position { age: 150, year: 2260, survivors: 5 })));
    assert_eq!(stepped(150, 2260, UNIT), Ok(Step::Ended));
    assert_eq!(stepped(150, 2261, UNIT + 1), Err(Refusal::year(2261)));
    assert_eq!(stepped(150, 2260, UNIT + 1), Err(Refusal::field(4554)));
    assert_eq!(stepped(0, 0, 0), Err(Refusal::age(0)));
    assert_eq!(stepped(20, 2005, 0), Err(Refusal::year(2005)));
    assert_eq!(stepped(20, u32::MAX, 0), Err(Refusal::year(u32::MAX)));
}
