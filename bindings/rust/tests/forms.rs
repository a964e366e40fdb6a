//! A basis in either form: read, written, brought to the short form and to the old one, and the same answers.

use std::fs;
use std::path::PathBuf;

use parvusek::{
    Basis, Form, Kind, OpenError, Question, Refusal, Roll, FILE_LENGTH, FILE_LENGTH_2, RUN_LENGTH, RUN_LENGTH_2,
};

const SAMPLES: &str = concat!(env!("CARGO_MANIFEST_DIR"), "/../../samples");

// ---- bases

fn old() -> Basis {
    Basis::open(format!("{SAMPLES}/basis.bin")).expect("the sample is accepted")
}

/// The run of the same fields in the new form: each P byte replaced by two, times 100, then zero bytes.
fn widened(old: &[u8]) -> Vec<u8> {
    let wide =
        |per_cents: &[u8]| per_cents.iter().flat_map(|p| (100 * u16::from(*p)).to_le_bytes()).collect::<Vec<_>>();
    let (ages, birth_years) = (wide(&old[1733..1864]), wide(&old[4285..4554]));
    let mut run = [b"MPB2", &old[4..1733], &ages, &old[1864..4285], &birth_years].concat();
    run.resize(RUN_LENGTH_2, 0);
    run
}

/// The sample in the new form, with other numbers of two bytes in some places.
fn changed(places: &[(usize, u16)]) -> Result<Basis, Refusal> {
    let mut run = widened(old().run());
    for (offset, number) in places {
        run[*offset..][..2].copy_from_slice(&number.to_le_bytes());
    }
    Basis::from_run(&run)
}

fn refusal(number: u32, first: u64) -> Refusal {
    Refusal { number, first, second: 0 }
}

// ---- forms

#[test]
fn the_length_tells_the_form() {
    let new = changed(&[]).expect("every field is within its limits");
    assert_eq!((old().form(), new.form()), (Form::Mpb1, Form::Mpb2));
    assert_eq!((old().run().len(), old().to_file().len()), (RUN_LENGTH, FILE_LENGTH));
    assert_eq!((new.run().len(), new.to_file().len()), (RUN_LENGTH_2, FILE_LENGTH_2));
    assert_eq!(
        format!("{:>6}|{:?}", new.form(), new),
        "  MPB2|Basis { form: Mpb2, foundation_year: 2006, base_year: 2008, .. }"
    );
    let longest = [new.to_file(), vec![0; 100]].concat();
    for length in [0, 4_553, 4_555, 4_608, 5_059, 5_061, 5_120] {
        assert_eq!(Basis::from_run(&longest[..length]), Err(refusal(1, 0)), "a run of {length}");
    }
    for length in [0, 4_554, 4_607, 4_609, 5_060, 5_119, 5_121] {
        assert_eq!(Basis::from_file(&longest[..length]), Err(refusal(1, 0)), "a file of {length}");
    }
    assert_eq!(Basis::from_run(&new.run()[..RUN_LENGTH]), Err(refusal(4, 3)));
    assert_eq!(Basis::from_run(&[b"MPB1", &new.run()[4..]].concat()), Err(refusal(4, 3)));
}

#[test]
fn fields_and_zero_bytes_of_the_new_form() {
    for offset in [1733, 1993, 4416, 4952] {
        assert!(changed(&[(offset, 15_000)]).is_ok());
        assert_eq!(changed(&[(offset, 15_001)]), Err(refusal(5, offset as u64)));
    }
    for offset in [4954, 5058] {
        assert_eq!(changed(&[(offset, 256)]), Err(refusal(4, offset as u64 + 1)));
    }
    assert_eq!(changed(&[(1733, 15_001), (4954, 1)]), Err(refusal(4, 4954)));
}

#[test]
fn a_file_is_read_and_written_in_its_own_form() {
    let finer = changed(&[(1733, 6_237), (4952, 1)]).expect("every field is within its limits");
    assert_eq!(Basis::from_file(&finer.to_file()), Ok(finer.clone()));
    let path = PathBuf::from(env!("CARGO_TARGET_TMPDIR")).join("finer.bin");
    fs::write(&path, finer.to_file()).expect("the folder of the tests can be written to");
    assert_eq!(Basis::open(&path).expect("it is accepted"), finer);
    fs::write(&path, [finer.to_file(), vec![0]].concat()).expect("likewise");
    assert!(matches!(Basis::open(&path), Err(OpenError::Refused(Refusal { number: 1, .. }))));
}

#[test]
fn the_short_form_keeps_the_form() {
    let short =
        changed(&[(1733, 6_237)]).and_then(|basis| basis.short_form(10_000_000)).expect("a rate within its limits");
    let wanted = old().short_form(10_000_000).expect("a rate within its limits");
    assert_eq!(short.run(), widened(wanted.run()));
    assert_eq!(short.run()[1733..1735], 5_000_u16.to_le_bytes());
    // T of ages 60 to 62 and 89 to 91, and of the first birth year and the last
    assert_eq!((&short.run()[1642..1645], &short.run()[1671..1674]), ([20, 20, 19].as_slice(), [6, 5, 5].as_slice()));
    assert_eq!((short.run()[4147], short.run()[4415]), (20, 20));
    assert_eq!(short.short_form(200_000_001), Err(refusal(5, 1078)));
}

#[test]
fn the_old_form_is_written_where_it_holds_every_proportion() {
    let file = old().to_file();
    assert_eq!(changed(&[]).and_then(|new| new.to_old_form()).map(Vec::from), Ok(file.clone()));
    assert_eq!(old().to_old_form().map(Vec::from), Ok(file));
    for places in [&[(1733, 1)][..], &[(1993, 5_050), (4952, 99)], &[(4416, 14_999)]] {
        let finer = changed(places).expect("every field is within its limits");
        assert_eq!(finer.to_old_form(), Err(refusal(17, places[0].0 as u64)));
    }
    let refused = refusal(17, 1733).to_string();
    assert_eq!(refused, "refused 17: a proportion is no whole per cent (offset 1733)");
}

// ---- answers

#[test]
fn both_forms_of_a_basis_answer_the_same() {
    let (old, new) = (old(), changed(&[]).expect("every field is within its limits"));
    let questions: Vec<Question> =
        (18..=152).map(|age| Question { age, deferment: age % 7, year: 1980 + age }).collect();
    assert_eq!(new.value(&questions), old.value(&questions));
    for &Question { age, deferment, year } in &questions {
        assert_eq!(new.improvement(age, year), old.improvement(age, year));
        assert_eq!(new.rate(age, year), old.rate(age, year));
        let [one, other] = [&new, &old].map(|basis| basis.annuity(Kind::Cohort, age, deferment, year));
        assert_eq!(one, other);
    }
    let [one, other] =
        [&new, &old].map(|basis| basis.lifeline(60, 2010).expect("a life").collect::<Result<Vec<_>, _>>());
    assert_eq!(one, other);
    let [one, other] = [&new, &old].map(|basis| Roll::open(2010).join(basis, 7, 65, 100_000));
    assert_eq!(one, other);
}

#[test]
fn hundredths_count() {
    let finer = Basis::open(format!("{SAMPLES}/finer/basis.bin")).expect("the sample in the new form is accepted");
    assert_eq!(finer.annuity(Kind::Cohort, 65, 0, 2010), Ok(15_616_398_202));
    assert_eq!(finer.to_old_form(), Err(refusal(17, 1733)));

    let mut run = widened(old().run());
    run[4..12].copy_from_slice(&[214, 7, 214, 7, 0, 0, 0, 0]); // F and B 2006, no addition
    for (start, rate) in [(554, 20_000_000_i32), (1078, 10_000_000)] {
        run[start..start + 524].copy_from_slice(&rate.to_le_bytes().repeat(131));
    }
    run[1602..1733].fill(40);
    run[1995..4147].fill(0);
    // 900 × (400,000 + (8P − 20,000) × 10) / 640,000,000 of the difference remains after ten years.
    for (p, improvement) in [(5_000_u16, 18_437_500), (5_025, 18_465_625), (12_500, 26_875_000), (1, 12_813_625)] {
        run[1733 + 2 * 40..][..2].copy_from_slice(&p.to_le_bytes());
        assert_eq!(Basis::from_run(&run).and_then(|basis| basis.improvement(60, 2016)), Ok(improvement));
    }
}
