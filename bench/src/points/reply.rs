//! The lines that the points program prints.
use crate::engine::refusal::Refusal;
use crate::engine::sets::{Question, Results};
use crate::engine::units::UNIT;

pub const HEADER: &[u8] = b"age deferment year period_ex cohort_ex period_annuity cohort_annuity\n";

/// An answered line: the three numbers asked, then the four results with nine decimals each.
pub fn put_results(replies: &mut Vec<u8>, question: Question, results: &Results) {
    let Question { age, deferment, year } = question;
    for number in [age, deferment, year] {
        put_number(replies, number.into());
        replies.push(b' ');
    }
    for &result in results {
        put_number(replies, result / UNIT);
        replies.push(b'.');
        // below U, so it fits
        replies.extend_from_slice(&digits::<9>((result % UNIT) as u32));
        replies.push(b' ');
    }
    if let Some(last) = replies.last_mut() {
        *last = b'\n';
    }
}

pub fn put_refusal(replies: &mut Vec<u8>, refusal: Refusal) {
    replies.extend_from_slice(b"refused ");
    for (number, then) in [(refusal.number.into(), b' '), (refusal.first, b' '), (refusal.second, b'\n')] {
        put_number(replies, number);
        replies.push(then);
    }
}

fn put_number(replies: &mut Vec<u8>, number: u64) {
    // nearly all are ages, years and whole parts
    if let Ok(number) = u32::try_from(number)
        && number < 10_000
    {
        let needed = 1 + usize::from(number >= 10) + usize::from(number >= 100) + usize::from(number >= 1000);
        replies.extend_from_slice(&digits::<4>(number)[4 - needed..]);
    } else {
        replies.extend_from_slice(number.to_string().as_bytes());
    }
}

/// The last so many decimal digits of a number.
#[inline]
fn digits<const COUNT: usize>(mut number: u32) -> [u8; COUNT] {
    let mut digits = [b'0'; COUNT];
    for digit in digits.iter_mut().rev() {
        *digit += (number % 10) as u8;
        number /= 10;
    }
    digits
}

#[cfg(test)]
mod tests {
    use super::*;

    #[test]
    fn numbers() {
        for number in [0, 1, 9, 10, 99, 100, 999, 1000, 9999, 10_000, 4_294_967_296, u64::MAX] {
            let mut text = Vec::new();
            put_number(&mut text, number);
            assert_eq!(text, number.to_string().as_bytes());
        }
    }

    #[test]
    fn lines() {
        let mut text = Vec::new();
        put_results(&mut text, Question { age: 20, deferment: 0, year: 2130 }, &[0, 1, UNIT - 1, 131_000_000_050]);
        put_refusal(&mut text, Refusal::improvement(20, 2007));
        assert_eq!(text, b"20 0 2130 0.000000000 0.000000001 0.999999999 131.000000050\nrefused 9 20 2007\n");
    }
}
