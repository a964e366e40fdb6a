//! The sample of the repository: its members' values, its refusals' sentences, and the same from two threads.

use std::fs;
use std::thread;

use parvusek::{decimal, Basis, Kind, Question, Refusal, UNIT};

const SAMPLES: &str = concat!(env!("CARGO_MANIFEST_DIR"), "/../../samples");

fn sample() -> Basis {
    Basis::open(format!("{SAMPLES}/basis.bin")).expect("the sample is accepted")
}

/// What the reference model gives for the members: the cells of each row, as far as the refusal's places.
fn expected_rows() -> Vec<Vec<String>> {
    let values = fs::read_to_string(format!("{SAMPLES}/values.csv")).expect("the sample has values");
    let rows = values.lines().skip(1).map(|row| row.split(',').take(11).map(String::from).collect());
    rows.collect()
}

fn question(row: &[String]) -> Question {
    let number = |place: usize| row[place].parse().expect("a member's cells are numbers");
    Question { age: number(1), deferment: number(2), year: number(3) }
}

#[test]
fn members_have_the_expected_values() {
    let rows = expected_rows();
    let questions: Vec<Question> = rows.iter().map(|row| question(row)).collect();
    let answers = sample().value(&questions).expect("the sample needs no history");
    for (row, answer) in rows.iter().zip(answers) {
        let cells = match answer {
            Ok(results) => {
                let four = [
                    results.period_expectation,
                    results.cohort_expectation,
                    results.period_annuity,
                    results.cohort_annuity,
                ];
                let mut cells: Vec<String> = four.iter().map(|units| decimal(*units).to_string()).collect();
                cells.extend(["", "", ""].map(String::from));
                cells
            }
            Err(Refusal { number, first, second }) => {
                let mut cells = vec![String::new(); 4];
                cells.extend([u64::from(number), first, second].map(|place| place.to_string()));
                cells
            }
        };
        assert_eq!(cells, row[4..], "{}", row[0]);
    }
}

#[test]
fn single_enquiries_agree_with_the_points() {
    let basis = sample();
    for row in expected_rows() {
        let Question { age, deferment, year } = question(&row);
        let single = basis.expectation(Kind::Period, age, deferment, year).and_then(|period| {
            let cohort = basis.expectation(Kind::Cohort, age, deferment, year)?;
            let annuities = (
                basis.annuity(Kind::Period, age, deferment, year)?,
                basis.annuity(Kind::Cohort, age, deferment, year)?,
            );
            Ok([period, cohort, annuities.0, annuities.1].into())
        });
        assert_eq!(basis.value(&[Question { age, deferment, year }]), Ok(vec![single]));
    }
}

#[test]
fn two_threads_on_one_basis_have_the_same_answers() {
    let basis = sample();
    let questions: Vec<Question> = (20..=150).map(|age| Question { age, deferment: 0, year: 2010 }).collect();
    let expected = basis.value(&questions);
    thread::scope(|scope| {
        let threads = [(); 2].map(|()| scope.spawn(|| basis.value(&questions)));
        for thread in threads {
            assert_eq!(thread.join().expect("the thread ends"), expected);
        }
    });
}

#[test]
fn a_lifeline_stops_at_its_end_and_after_a_refusal() {
    let basis = sample();
    let mut line = basis.lifeline(148, 2010).expect("an age and a year within their limits");
    assert_eq!(line.standing().survivors, UNIT);
    assert_eq!(line.by_ref().filter(Result::is_ok).count(), 2);
    assert_eq!(line.step(), Ok(None));
    assert!(line.next().is_none());
    assert_eq!(basis.lifeline(20, 2131).map(|_| ()).unwrap_err(), Refusal { number: 7, first: 2131, second: 0 });

    // Improvements of -50 per cent at every age: the factor passes 4 to one in the fourth year.
    let mut run = basis.run().to_vec();
    let mut put = |offset: usize, number: i32| run[offset..offset + 4].copy_from_slice(&number.to_le_bytes());
    put(8, -100_000_000);
    for age in 0..131 {
        put(554 + 4 * age, -200_000_000);
        put(1078 + 4 * age, -200_000_000);
    }
    for birth_year in 0..269 {
        put(1864 + 4 * birth_year, -200_000_000);
        put(2940 + 4 * birth_year, -200_000_000);
    }
    let steep = Basis::from_run(&run).expect("every field is within its limits");
    let mut line = steep.lifeline(60, 2008).expect("a start uses no rate");
    let refused = Refusal { number: 10, first: 64, second: 2012 };
    assert_eq!(line.by_ref().last(), Some(Err(refused)));
    assert_eq!(line.standing().age, 64);
    assert!(line.next().is_none());
    assert_eq!(line.step(), Err(refused));
}

/// The sample with this rate of discount, and with a rate of mortality of one tenth at 149 in the base year.
fn discounted(rate: i32) -> Result<Basis, Refusal> {
    let mut run = sample().run().to_vec();
    run[12..16].copy_from_slice(&rate.to_le_bytes());
    run[30 + 4 * 129..][..4].copy_from_slice(&100_000_000_i32.to_le_bytes());
    Basis::from_run(&run)
}

#[test]
fn the_rate_of_discount_may_be_below_zero() {
    let basis = discounted(-10_000_000).expect("the lowest rate");
    assert_eq!(basis.discount_rate(), -10_000_000);
    // One now, and nine tenths of 1,010,101,010 in a year.
    assert_eq!(basis.annuity(Kind::Period, 149, 0, 2008), Ok(1_909_090_909));
    assert_eq!(discounted(-10_000_001).unwrap_err(), Refusal { number: 5, first: 12, second: 0 });
}

#[test]
fn sentences_are_those_of_the_document() {
    let document = fs::read_to_string(concat!(env!("CARGO_MANIFEST_DIR"), "/../../docs/REFUSALS.md"))
        .expect("the document is there");
    for number in 1..=17 {
        let refusal = Refusal { number, first: 0, second: 0 };
        let row = format!("\n| {number} | {} |", refusal.sentence());
        assert!(document.contains(&row), "docs/REFUSALS.md has no row {row:?}");
    }
}

#[test]
fn decimals_can_be_aligned() {
    assert_eq!(format!("{:>14}|{:<14}|", decimal(UNIT), decimal(-1_i64)), "   1.000000000|-0.000000001  |");
}
