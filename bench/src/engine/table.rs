//! A table of numbers or of bytes against its limits. The scan looks at every entry and does not leave early, so that the
//! compiler takes several at a time; the first bad entry is looked for only where the scan has found that there is one.
use std::ops::RangeInclusive;

/// Which of these little-endian numbers is the first outside its limits, if one is.
#[inline]
pub fn first_bad_number(table: &[u8], limits: &RangeInclusive<i32>) -> Option<usize> {
    let (entries, rest) = table.as_chunks();
    debug_assert!(rest.is_empty());
    first_bad(entries, |&entry| limits.contains(&i32::from_le_bytes(entry)))
}

/// Which of these little-endian numbers of two bytes is the first outside its limits, if one is.
#[inline]
pub fn first_bad_short(table: &[u8], limits: &RangeInclusive<u16>) -> Option<usize> {
    let (entries, rest) = table.as_chunks();
    debug_assert!(rest.is_empty());
    first_bad(entries, |&entry| limits.contains(&u16::from_le_bytes(entry)))
}

/// Which of these bytes is the first outside its limits, if one is.
#[inline]
pub fn first_bad_byte(table: &[u8], limits: &RangeInclusive<u8>) -> Option<usize> {
    first_bad(table, |byte| limits.contains(byte))
}

/// Which of these bytes is the first that is not zero, if one is.
#[inline]
pub fn first_non_zero(bytes: &[u8]) -> Option<usize> {
    first_bad(bytes, |&byte| byte == 0)
}

#[inline]
fn first_bad<T>(entries: &[T], is_good: impl Fn(&T) -> bool + Copy) -> Option<usize> {
    if entries.iter().fold(true, |all, entry| all & is_good(entry)) { None } else { find_bad(entries, is_good) }
}

#[cold]
fn find_bad<T>(entries: &[T], is_good: impl Fn(&T) -> bool) -> Option<usize> {
    entries.iter().position(|entry| !is_good(entry))
}

#[cfg(test)]
mod tests {
    use super::*;

    #[test]
    fn every_place_is_looked_at_and_the_first_is_named() {
        for count in 1..=70 {
            for place in 0..count {
                let mut bytes = vec![0u8; count];
                let mut numbers = vec![[0u8; 4]; count];
                let mut shorts = vec![[0u8; 2]; count];
                assert_eq!([first_non_zero(&bytes), first_bad_number(numbers.as_flattened(), &(-5..=5))], [None; 2]);
                assert_eq!(first_bad_short(shorts.as_flattened(), &(0..=300)), None);
                for (bad, second) in [(6, count - 1), (i32::MIN, place), (-6, place + (count - place) / 2)] {
                    bytes[place] = 51;
                    bytes[second] = 255;
                    (numbers[place], numbers[second]) = (bad.to_le_bytes(), bad.to_le_bytes());
                    (shorts[place], shorts[second]) = (301u16.to_le_bytes(), u16::MAX.to_le_bytes());
                    assert_eq!(first_bad_byte(&bytes, &(0..=50)), Some(place));
                    assert_eq!(first_non_zero(&bytes), Some(place));
                    assert_eq!(first_bad_number(numbers.as_flattened(), &(-5..=5)), Some(place));
                    assert_eq!(first_bad_short(shorts.as_flattened(), &(0..=300)), Some(place));
                }
            }
        }
    }
}
