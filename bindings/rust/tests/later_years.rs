//! Years after 2130, which values of a life, the sets, the lifeline and a roll take, and single cells do not. The numbers
//! expected are worked by hand: one in ten dies in 2130, which is B, so that every improvement taken is of a later year.

use parvusek::{Basis, Kind, Question, Record, Refusal, Results, Roll, Standing, GRID, UNIT};

// ---- bases

/// F 2080 and B 2130, every base rate one tenth, these long-term rates at every age and of every birth year, this addition,
/// and other numbers of four bytes in some places; initial rates 0, T 20, P 50.
fn later(by_age: i32, by_birth_year: i32, addition: i32, changes: &[(usize, i32)]) -> Basis {
    let mut run = b"MPB1".to_vec();
    run.extend([2080_u16.to_le_bytes(), 2130_u16.to_le_bytes()].concat());
    run.extend(addition.to_le_bytes());
    run.extend([0; 18]);
    run.extend(100_000_000_i32.to_le_bytes().repeat(131));
    run.extend([0; 4 * 131]);
    run.extend(by_age.to_le_bytes().repeat(131));
    run.extend([[20; 131], [50; 131]].concat());
    run.extend([0; 4 * 269]);
    run.extend(by_birth_year.to_le_bytes().repeat(269));
    run.extend([[20; 269], [50; 269]].concat());
    for (offset, number) in changes {
        run[*offset..][..4].copy_from_slice(&number.to_le_bytes());
    }
    Basis::from_run(&run).expect("every field is within its limits")
}

/// 2 per cent by age, 1 by birth year and 0.5 of the addition: 0.0965 die in 2131, and 0.0931225 in 2132.
fn improving() -> Basis {
    later(20_000_000, 10_000_000, 5_000_000, &[])
}

/// Half as much again each year: 1.5, 2.25 and 3.375, so that 0.15, 0.225 and 0.3375 die, and 2134 is above 4.
fn worsening() -> Basis {
    later(-200_000_000, -200_000_000, -100_000_000, &[])
}

fn refusal(number: u32, first: u64, second: u64) -> Refusal {
    Refusal { number, first, second }
}

fn question(age: u32, deferment: u32, year: u32) -> Question {
    Question { age, deferment, year }
}

/// What the four enquiries answer, one by one.
fn single(basis: &Basis, Question { age, deferment, year }: Question) -> Result<Results, Refusal> {
    let results = [
        basis.expectation(Kind::Period, age, deferment, year)?,
        basis.expectation(Kind::Cohort, age, deferment, year)?,
        basis.annuity(Kind::Period, age, deferment, year)?,
        basis.annuity(Kind::Cohort, age, deferment, year)?,
    ];
    Ok(results.into())
}

// ---- what is answered

#[test]
fn each_later_year_takes_the_long_term_rates_and_the_addition() {
    // 1 per cent of one of the three: 0.099 die in 2131, and 0.9 x 0.901 are left of the cohort.
    for (by_age, by_birth_year, addition) in [(1, 0, 0), (0, 1, 0), (0, 0, 1)] {
        let basis = later(10_000_000 * by_age, 10_000_000 * by_birth_year, 10_000_000 * addition, &[]);
        assert_eq!(basis.survivorship(Kind::Cohort, 148, 2, 2130), Ok(810_900_000));
        assert_eq!(basis.survivorship(Kind::Period, 148, 2, 2130), Ok(810_000_000));
    }
    // The latest rate is that of 149 in 2259: one in two, but 10 per cent fewer of birth year 2110.
    let latest = later(0, 0, 0, &[(30 + 4 * 129, 500_000_000), (2940 + 4 * 268, 100_000_000)]);
    assert_eq!(latest.expectation(Kind::Period, 20, 129, 2130), Ok(1_050_000_000));
    assert_eq!(latest.expectation(Kind::Cohort, 20, 129, 2130), Ok(1_050_000_000));
    assert_eq!(latest.expectation(Kind::Cohort, 21, 128, 2130), Ok(UNIT));
    // The three limits add up to that of 9: 0.05 die in 2131.
    let high = later(200_000_000, 200_000_000, 100_000_000, &[]);
    assert_eq!(high.survivorship(Kind::Cohort, 148, 2, 2130), Ok(855_000_000));
}

#[test]
fn points_go_on_after_2130() {
    // Deferred to 148 in 2131: 0.9035 x 0.9035 by that year's rates, 0.9035 x 0.9068775 by those of the cohort.
    let results = Results::from([2_219_812_250, 2_222_863_821, 2_439_000_000, 2_450_577_439]);
    let member = question(147, 1, 2130);
    assert_eq!(single(&improving(), member), Ok(results));
    assert_eq!(improving().small_set(&[member; 6]), Ok([Ok(results); 6]));
    assert_eq!(improving().value(&[member; 120]), Ok(vec![Ok(results); 120]));
}

#[test]
fn a_grid_answers_as_the_enquiries_do() {
    // From young ages on, deferred to even years and odd ones; where rates worsen by 2 per cent some are refused.
    let members: Vec<Question> = (20..139).map(|age| question(age, 17 * age % (151 - age), 2130)).collect();
    for (basis, refused) in [(improving(), false), (later(-20_000_000, 1_000_000, -1_000_000, &[]), true)] {
        let wanted: Vec<_> = members.iter().map(|member| single(&basis, *member)).collect();
        assert_eq!(wanted.iter().any(Result::is_err), refused);
        let mut records: Vec<Record> = members.iter().copied().map(Record::new).collect();
        assert_eq!((records.len(), basis.grid(&mut records)), (GRID, Ok(())));
        assert_eq!(records.iter().map(Record::answer).collect::<Vec<_>>(), wanted);
        for (six, answers) in members.chunks_exact(6).zip(wanted.chunks_exact(6)) {
            let set = basis.small_set(six.try_into().expect("six of them")).expect("no history is needed");
            assert_eq!(set.as_slice(), answers);
        }
    }
}

#[test]
fn a_life_is_followed_after_2130() {
    let steps: Result<Vec<Standing>, Refusal> = improving().lifeline(148, 2130).expect("2130 may be asked").collect();
    let after = [(149, 2131, 900_000_000), (150, 2132, 813_150_000)];
    assert_eq!(steps, Ok(after.map(|(age, year, survivors)| Standing { age, year, survivors }).to_vec()));
    let basis = later(2_000_000, 1_000_000, 1_000_000, &[]);
    let last = basis.lifeline(20, 2130).expect("the last birth year").last().expect("130 steps").expect("no refusal");
    assert_eq!((last.age, last.year), (150, 2260));
    assert_eq!(basis.survivorship(Kind::Cohort, 20, 130, 2130), Ok(last.survivors));

    let mut roll = Roll::open(2130);
    assert_eq!(roll.join(&improving(), 7, 148, 10_000_000).expect("148 is worth 2.71315"), 27_131_500);
}

// ---- what is refused

#[test]
fn ten_may_name_a_later_year() {
    let basis = worsening();
    assert_eq!(basis.survivorship(Kind::Cohort, 60, 4, 2130), Ok(392_779_688));
    assert_eq!(basis.survivorship(Kind::Cohort, 60, 5, 2130), Err(refusal(10, 64, 2134)));
    assert_eq!(basis.annuity(Kind::Cohort, 60, 20, 2130), Err(refusal(10, 64, 2134)));
    assert_eq!(basis.expectation(Kind::Period, 60, 7, 2130), Err(refusal(10, 67, 2134)));
    assert_eq!(basis.value(&[question(60, 7, 2130)]), Ok(vec![Err(refusal(10, 67, 2134))]));

    let mut line = basis.lifeline(60, 2130).expect("a start uses no rate");
    assert_eq!(line.by_ref().last(), Some(Err(refusal(10, 64, 2134))));
    assert_eq!(line.standing(), Standing { age: 64, year: 2134, survivors: 392_779_688 });
    let joined = Roll::open(2130).join(&basis, 7, 60, 0).map_err(|refused| refused.refusal);
    assert_eq!(joined, Err(refusal(10, 64, 2134)));
}

#[test]
fn a_single_cell_ends_in_2130() {
    let basis = worsening();
    assert_eq!((basis.improvement(60, 2130), basis.factor(60, 2130)), (Ok(-500_000_000), Ok(UNIT)));
    for (age, year) in [(60, 2131), (149, 2259)] {
        let refused = refusal(7, year.into(), 0);
        assert_eq!(basis.improvement(age, year), Err(refused));
        assert_eq!((basis.factor(age, year), basis.rate(age, year)), (Err(refused), Err(refused)));
        assert_eq!(basis.annuity(Kind::Cohort, age, 0, year), Err(refused));
    }
}
