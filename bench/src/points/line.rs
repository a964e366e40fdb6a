//! A line of the points program: three decimal numbers of 1 to 4 digits, single spaces between, no needless leading zero.
use crate::engine::sets::Question;

/// The bytes of the longest line that can be an enquiry: three numbers of four digits and two spaces.
pub const LONGEST: usize = 14;

/// The enquiry that a line is, its byte 10 not among its bytes.
pub fn parse(line: &[u8]) -> Option<Question> {
    let (age, rest) = number(line)?;
    let (deferment, rest) = number(rest.strip_prefix(b" ")?)?;
    let (year, rest) = number(rest.strip_prefix(b" ")?)?;
    rest.is_empty().then_some(Question { age, deferment, year })
}

/// The number at the start of a text, and what follows its digits.
#[inline]
fn number(text: &[u8]) -> Option<(u32, &[u8])> {
    let mut value = 0;
    let mut digits = 0;
    while let Some(digit) = text.get(digits).map(|byte| byte.wrapping_sub(b'0'))
        && digit <= 9
    {
        if digits == 4 || (digits == 1 && value == 0) {
            return None;
        }
        value = 10 * value + u32::from(digit);
        digits += 1;
    }
    (digits > 0).then_some((value, &text[digits..]))
}

#[cfg(test)]
mod tests {
    use super::*;

    #[test]
    fn forms() {
        assert_eq!(parse(b"148 0 2010"), Some(Question { age: 148, deferment: 0, year: 2010 }));
        assert_eq!(parse(b"0 9999 1000"), Some(Question { age: 0, deferment: 9999, year: 1000 }));
        assert_eq!(parse(b"9999 9999 9999").map(|question| question.year), Some(9999));
        let malformed: [&[u8]; 20] = [
            b"",
            b" ",
            b"148",
            b"148 0",
            b"148 0 ",
            b"148 0 2010 ",
            b" 148 0 2010",
            b"148  0 2010",
            b"148 0  2010",
            b"0148 0 2010",
            b"148 00 2010",
            b"148 01 2010",
            b"0 0 00",
            b"148 0 12010",
            b"148 0 2010\r",
            b"148\t0 2010",
            b"148 -0 2010",
            b"148 0 2010 1",
            b"99999 9999 9999",
            b"148 0 2o10",
        ];
        assert!(malformed.iter().all(|line| parse(line).is_none()));
    }
}
