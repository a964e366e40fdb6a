//! The form MPB2: figures worked by hand, its lengths, the order of its refusals, and the way back to the old form.
use super::enquiries::{check_basis, improvement};
use super::file::{read_basis, write_basis, write_old_form};
use super::form::{FORMS, Form, TABLES};
use super::lifeline::{self, Position};
use super::refusal::Refusal;
use super::run::table;
use super::short_form::short_form;
use super::units::UNIT;
use crate::bases::draft::Component::{self, Age, BirthYear};
use crate::bases::{Draft, files};

fn plain() -> Draft {
    Draft::plain(2006, 2006).in_form(Form::Mpb2)
}

// ---- figures

/// The improvement at age 60 so many years after F. Each component has its rates, T, and P in hundredths.
fn improvement_of(by_age: ([i32; 2], u8, u16), by_birth_year: ([i32; 2], u8, u16), years: u32) -> Result<i64, Refusal> {
    let mut draft = plain();
    let born = (2006 + years - 60 - 1842) as usize;
    for (component, index, (rates, period, hundredths)) in [(Age, 40, by_age), (BirthYear, born, by_birth_year)] {
        draft.set_component(component, index, rates, period, 0);
        draft.set_proportion(component, index, hundredths);
    }
    improvement(&draft.run, &[], 60, 2006 + years)
}

/// In the year after F the weight with T 2 is P itself.
fn half_way(rates: [i32; 2], by_age: u16, by_birth_year: u16) -> Result<i64, Refusal> {
    improvement_of((rates, 2, by_age), (rates, 2, by_birth_year), 1)
}

#[test]
fn proportions_in_hundredths() {
    let zero = ([0, 0], 20, 5_000);
    // 900 x (400,000 + 200,080) / 640,000,000 is 0.8438625, and with 50 per cent 0.84375
    let at = |hundredths| improvement_of(([20_000_000, 10_000_000], 40, hundredths), zero, 10);
    assert_eq!([5_000, 5_001, 12_500].map(at), [18_437_500, 18_438_625, 26_875_000].map(Ok));
    assert_eq!(improvement_of(zero, ([20_000_000, 10_000_000], 40, 5_001), 10), Ok(18_438_625));
    // each hundredth of 10,000 is one, also where the lower byte alone would be another number
    let at = |hundredths| half_way([10_000, 0], hundredths, 0);
    assert_eq!([0, 1, 255, 256, 5_001, 14_999, 15_000].map(at), [0, 1, 255, 256, 5_001, 14_999, 15_000].map(Ok));
}

#[test]
fn one_rounding_in_hundredths() {
    // 0.4999, 0.5 and 0.5; -0.5 and -0.5001
    assert_eq!(
        [(2_499, 2_500), (2_500, 2_500), (4_999, 1)].map(|(a, b)| half_way([1, 0], a, b)),
        [Ok(0), Ok(1), Ok(1)]
    );
    assert_eq!([(2_500, 2_500), (2_501, 2_500)].map(|(a, b)| half_way([-1, 0], a, b)), [Ok(0), Ok(-1)]);
    // 399,999,998 and 2.4999 or 2.5, and the same below zero: without an addition 9 is far away
    let near = [200_000_000, 199_999_999];
    assert_eq!(
        [(14_999, 10_000), (15_000, 10_000)].map(|(a, b)| half_way(near, a, b)),
        [400_000_000, 400_000_001].map(Ok)
    );
    let near = near.map(|rate| -rate);
    assert_eq!(
        [(15_000, 10_000), (15_000, 10_001)].map(|(a, b)| half_way(near, a, b)),
        [-400_000_000, -400_000_001].map(Ok)
    );
}

// ---- checks

/// The sound run with these bytes changed.
fn checked(changes: &[(usize, u8)]) -> Result<(), Refusal> {
    let mut run = plain().run;
    changes.iter().for_each(|&(place, byte)| run[place] = byte);
    check_basis(&run)
}

#[test]
fn every_4_comes_before_every_5() {
    assert_eq!(checked(&[]), Ok(()));
    assert_eq!(checked(&[(3, b'1')]), Err(Refusal::mark(3)));
    for place in [16, 29, 4954, 4955, 5000, 5059] {
        assert_eq!(checked(&[(place, 1)]), Err(Refusal::mark(place)));
        assert_eq!(checked(&[(4, 0), (5, 0), (1734, 255), (place, 1)]), Err(Refusal::mark(place)));
    }
    assert_eq!(checked(&[(29, 1), (4954, 1)]), Err(Refusal::mark(29)));
    assert_eq!(checked(&[(4954, 1), (5059, 1)]), Err(Refusal::mark(4954)));
    assert_eq!(checked(&[(0, b'm'), (16, 1), (5059, 1)]), Err(Refusal::mark(0)));
}

#[test]
fn the_limits_of_a_proportion() {
    for (component, index, offset) in [(Age, 0, 1733), (Age, 130, 1993), (BirthYear, 0, 4416), (BirthYear, 268, 4952)] {
        let mut draft = plain();
        let mut checked = |hundredths| {
            draft.set_proportion(component, index, hundredths);
            check_basis(&draft.run)
        };
        assert_eq!([0, 1, 255, 256, 14_999, 15_000].map(&mut checked), [Ok(()); 6]);
        assert_eq!([15_001, 15_104, 25_600, 65_535].map(&mut checked), [Err(Refusal::field(offset)); 4]);
    }
}

#[test]
fn the_other_fields_have_their_places() {
    // periods 0 and 51, and a top byte beyond the limits of each table of rates
    for (place, offset) in [(1602, 1602), (1732, 1732), (4147, 4147), (4415, 4415)] {
        assert_eq!([0, 51].map(|period| checked(&[(place, period)])), [Err(Refusal::field(offset)); 2]);
    }
    for offset in [30, 550, 554, 1074, 1078, 1598, 1995, 3067, 3071, 4143] {
        assert_eq!(checked(&[(offset + 3, 0x7f)]), Err(Refusal::field(offset)));
    }
    assert_eq!(checked(&[(1734, 255), (1998, 0x7f)]), Err(Refusal::field(1733)));
    assert_eq!(checked(&[(4417, 255), (4415, 0)]), Err(Refusal::field(4415)));
}

/// A run or a file of any other length has no form; at the other form's length the mark is wrong.
#[test]
fn lengths() {
    for form in FORMS {
        let run = Draft::benchmark().in_form(form).run;
        let file = files::file_of(&run);
        for length in 0..=5200 {
            let of = |bytes: &[u8]| [bytes, &[0; 5200]].concat()[..length].to_vec();
            let refused = |own, either: [usize; 2]| match length {
                _ if length == own => Ok(()),
                _ if either.contains(&length) => Err(Refusal::mark(3)),
                _ => Err(Refusal::length()),
            };
            assert_eq!(check_basis(&of(&run)), refused(form.run_length(), [4554, 5060]), "a run of {length}");
            let read = read_basis(&of(&file), &mut [0; 5060]);
            // of an old file, what is behind it is no tenth block
            let wanted = if (form, length) == (Form::Mpb1, 5120) {
                Err(Refusal::block_number(9))
            } else {
                refused(form.file_length(), [4608, 5120])
            };
            assert_eq!(read, wanted, "a file of {length}");
        }
    }
}

#[test]
fn an_old_run_with_a_tenth_block_has_the_wrong_mark() {
    let mut joined = Draft::benchmark().run;
    joined.resize(5060, 0);
    assert_eq!(read_basis(&files::file_of(&joined), &mut [0; 5060]), Err(Refusal::mark(3)));
    // with the right one its fields are read in the places of the new form: P 50 and 50 are 12,850, and T are none
    joined[3] = b'2';
    assert_eq!(check_basis(&joined).map_err(|refusal| refusal.number), Err(5));
}

// ---- outputs

type Writer = fn(&[u8], &mut [u8]) -> Result<(), Refusal>;

/// A call, what it is lent of the old and of the new form, and what it needs for these and for a length of no form.
type Needing<'lent> = (Writer, [&'lent [u8]; 2], [usize; 3]);

#[test]
fn the_output_that_is_needed() {
    let [old, new] = FORMS.map(|form| Draft::benchmark().in_form(form).run);
    let [old_file, new_file] = [&old, &new].map(|run| files::file_of(run));
    let short: Writer = |run, out| short_form(run, 0, out);
    let cases: [Needing; 4] = [
        (read_basis, [&old_file, &new_file], [4554, 5060, 4554]),
        (write_basis, [&old, &new], [4608, 5120, 4608]),
        (write_old_form, [&old, &new], [4608, 4608, 4608]),
        (short, [&old, &new], [4554, 5060, 4554]),
    ];
    for (call, [of_old, of_new], needed) in cases {
        let lent = [(of_old, Ok(())), (of_new, Ok(())), (&of_old[1..], Err(Refusal::length()))];
        for ((lent, outcome), needed) in lent.into_iter().zip(needed) {
            let mut output = vec![9; needed + 7];
            assert_eq!(call(lent, &mut output[..needed - 1]), Err(Refusal::output(needed)));
            assert_eq!(call(lent, &mut []), Err(Refusal::output(needed)));
            assert!(output.iter().all(|&byte| byte == 9));
            assert_eq!(call(lent, &mut output), outcome);
            assert_eq!(output[needed..], [9; 7]);
            assert_eq!(outcome.is_err(), output[..needed].iter().all(|&byte| byte == 9));
        }
    }
    // a file of a run's length, and a run of a file's, have no form
    assert_eq!(read_basis(&new, &mut [0; 4553]), Err(Refusal::output(4554)));
    assert_eq!(write_basis(&new_file, &mut [0; 4607]), Err(Refusal::output(4608)));
    assert_eq!(read_basis(&new, &mut [0; 4554]), Err(Refusal::length()));
    assert_eq!(write_basis(&new_file, &mut [0; 4608]), Err(Refusal::length()));
}

#[test]
fn a_file_is_read_and_written_in_its_own_form() {
    for form in FORMS {
        let run = Draft::benchmark().in_form(form).run;
        let mut file = vec![0; form.file_length()];
        assert_eq!(write_basis(&run, &mut file), Ok(()));
        assert_eq!(file, files::file_of(&run));
        let mut back = vec![0; form.run_length()];
        assert_eq!(read_basis(&file, &mut back), Ok(()));
        assert_eq!(back, run);
    }
}

#[test]
fn a_short_form_keeps_its_run_s_form() {
    let mut draft = Draft::benchmark().in_form(Form::Mpb2);
    draft.set_proportion(Age, 7, 1_234);
    let mut out = [9; 5061];
    assert_eq!(short_form(&draft.run, 200_000_001, &mut out), Err(Refusal::field(1078)));
    assert_eq!(short_form(&draft.run, 10_000_000, &mut out), Ok(()));
    let short = Draft { run: out[..5060].to_vec() };
    assert_eq!(check_basis(&short.run), Ok(()));
    for component in [Age, BirthYear] {
        for index in 0..component.entries() {
            assert_eq!(short.proportion(component, index), 5_000);
        }
    }
    assert_eq!((&short.run[..4], &short.run[4954..]), (b"MPB2".as_slice(), [0; 106].as_slice()));
    // T of ages 20 to 61, 62 and 63, 88 to 91, 150, and of every birth year
    assert_eq!((&out[1602..1644], &out[1644..1646]), ([20; 42].as_slice(), [19; 2].as_slice()));
    assert_eq!((&out[1670..1674], out[1732]), ([6, 6, 5, 5].as_slice(), 5));
    assert_eq!((&out[4147..4416], out[5060]), ([20; 269].as_slice(), 9));
    assert_eq!((out[..1078] == draft.run[..1078], out[1995..3071] == draft.run[1995..3071]), (true, true));
    assert_eq!(out[3071..4147], [0; 1076]);
}

#[test]
fn the_place_of_survivors_is_the_run_s_length() {
    for (form, place) in [(Form::Mpb1, 4554), (Form::Mpb2, 5060)] {
        let run = Draft::plain(2006, 2006).in_form(form).run;
        let position = Position { age: 60, year: 2010, survivors: UNIT + 1 };
        assert_eq!(lifeline::step(&run, &[], position), Err(Refusal::field(place)));
    }
}

#[test]
fn tables_are_stretches_of_the_run_itself() {
    for form in FORMS {
        let mut run = Draft::benchmark().in_form(form).run;
        for kind in TABLES {
            let found = table(&run, kind);
            assert_eq!(found.as_ptr_range(), run[form.stretch(kind)].as_ptr_range());
        }
        run[3] = b'3';
        assert!(TABLES.iter().all(|&kind| table(&run, kind).is_empty() && table(&run[1..], kind).is_empty()));
    }
    let lengths = |form: Form| TABLES.map(|kind| table(&Draft::benchmark().in_form(form).run, kind).len());
    assert_eq!(lengths(Form::Mpb1), [524, 524, 524, 131, 131, 1076, 1076, 269, 269]);
    assert_eq!(lengths(Form::Mpb2), [524, 524, 524, 131, 262, 1076, 1076, 269, 538]);
}

// ---- the way back

fn old_form(draft: &Draft) -> Result<Vec<u8>, Refusal> {
    let mut file = vec![9; 4608];
    let written = write_old_form(&draft.run, &mut file);
    assert!(written.is_ok() || file == [9; 4608]);
    written.map(|()| file)
}

#[test]
fn whole_per_cents_are_written_in_the_old_form() {
    let mut old = Draft::benchmark();
    for (component, index, per_cents) in [(Age, 0, 0), (Age, 130, 150), (BirthYear, 0, 1), (BirthYear, 268, 149)] {
        old.set_component(component, index, [1, 2], 3, per_cents);
    }
    let file = files::file_of(&old.run);
    assert_eq!(old_form(&old.clone().in_form(Form::Mpb2)), Ok(file.clone()));
    assert_eq!(old_form(&old), Ok(file));
}

#[test]
fn the_first_that_is_no_whole_per_cent_is_named() {
    let places: [(Component, usize, usize); 4] =
        [(BirthYear, 268, 4952), (BirthYear, 0, 4416), (Age, 130, 1993), (Age, 0, 1733)];
    let mut several = plain();
    for (component, index, offset) in places {
        for hundredths in [1, 99, 101, 256, 4_999, 5_050, 14_999] {
            let mut draft = plain();
            draft.set_proportion(component, index, hundredths);
            assert_eq!(old_form(&draft), Err(Refusal::proportion(offset)));
        }
        several.set_proportion(component, index, 5_001);
        assert_eq!(old_form(&several), Err(Refusal::proportion(offset)));
    }
    assert_eq!(Refusal::proportion(1733), Refusal { number: 17, first: 1733, second: 0 });
}

#[test]
fn the_order_of_the_old_form_s_refusals() {
    let mut draft = plain();
    draft.set_proportion(Age, 0, 5_001);
    draft.set_proportion(BirthYear, 268, 15_001);
    draft.run[5059] = 1;
    let mut file = [9; 4608];
    assert_eq!(write_old_form(&draft.run[1..], &mut file[1..]), Err(Refusal::output(4608)));
    assert_eq!(write_old_form(&draft.run[1..], &mut file), Err(Refusal::length()));
    assert_eq!(old_form(&draft), Err(Refusal::mark(5059)));
    draft.run[5059] = 0;
    assert_eq!(old_form(&draft), Err(Refusal::field(4952)));
    draft.set_proportion(BirthYear, 268, 15_000);
    assert_eq!(old_form(&draft), Err(Refusal::proportion(1733)));
    draft.set_proportion(Age, 0, 5_000);
    assert!(old_form(&draft).is_ok());
}
