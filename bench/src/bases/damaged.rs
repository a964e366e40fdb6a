//! Damage to a data run of either form: one field or a few just outside the limits, the mark of the other form, zero
//! bytes, bytes at random, another length.
use super::forms::other;
use crate::engine::form::{FORMS, Form, TABLES, Table};
use crate::engine::layout::*;
use crate::random::Random;

/// Damages an accepted run in one of the ways that its checks must find, or now and then in none.
pub fn damage(random: &mut Random, run: &mut Vec<u8>) {
    let form = Form::of_run(run.len()).expect("only a run of a form is damaged");
    match random.below(13) {
        0 => mark(random, run),
        1 => other_mark(form, run),
        2 => (0..=random.below(3)).for_each(|_| zero_byte(random, form, run)),
        3 => years(random, run),
        4..=6 => {
            for _ in 0..=random.below(3) {
                field(random, form, run);
            }
            // every 4 comes before every 5
            if random.one_in(8) {
                zero_byte(random, form, run);
            }
        }
        7 => entries(random, form, run),
        8 => {
            let table = random.pick(&[Table::AgeProportions, Table::BirthProportions]);
            entry(random, form, run, table);
        }
        9 => {
            for _ in 0..=random.below(4) {
                let place = random.below(run.len() as u64) as usize;
                run[place] ^= 1 << random.below(8);
            }
        }
        10 => run.iter_mut().for_each(|byte| *byte = random.word() as u8),
        11 => other_length(random, form, run),
        _ => length(random, run),
    }
}

fn mark(random: &mut Random, run: &mut [u8]) {
    run[random.below(4) as usize] ^= random.between(1, 255) as u8;
}

fn other_mark(form: Form, run: &mut [u8]) {
    run[..4].copy_from_slice(&other(form).mark());
}

/// One of those before the tables or behind them, often at an end.
fn zero_byte(random: &mut Random, form: Form, run: &mut [u8]) {
    let tail = form.tail();
    let bytes = if tail.is_empty() || random.one_in(2) { ZERO_BYTES..FIRST_TABLE } else { tail };
    run[bytes.start + edge_or_any(random, bytes.len())] = random.between(1, 255) as u8;
}

fn years(random: &mut Random, run: &mut [u8]) {
    let offset = random.pick(&[FOUNDATION_YEAR, BASE_YEAR]);
    let year = random.pick(&[0, 1991, 1992, 2080, 2081, 2130, 2131, 65535]);
    run[offset..][..2].copy_from_slice(&(year as u16).to_le_bytes());
}

fn field(random: &mut Random, form: Form, run: &mut [u8]) {
    if random.one_in(5) {
        let offset = random.pick(&[CONSTANT_ADDITION, DISCOUNT_RATE]);
        let beyond = [-100_000_001, 100_000_001, -10_000_001, 200_000_001, i32::MIN, i32::MAX];
        run[offset..][..4].copy_from_slice(&random.pick(&beyond).to_le_bytes());
    } else {
        let table = random.pick(&TABLES);
        entry(random, form, run, table);
    }
}

/// Several entries of one table, of which the first must be named.
fn entries(random: &mut Random, form: Form, run: &mut [u8]) {
    let table = random.pick(&TABLES);
    for _ in 0..random.between(2, 5) {
        entry(random, form, run, table);
    }
}

fn entry(random: &mut Random, form: Form, run: &mut [u8], table: Table) {
    let width = form.width(table);
    let place = form.offset(table) + width * edge_or_any(random, table.entries());
    let beyond = match width {
        1 => random.pick(&[0, 51, 151, 255]),
        // the lower byte alone is within the limits of some of these
        2 => random.pick(&[15_001, 15_100, 15_104, 25_600, 32_768, 65_535]),
        _ => random.pick(&[-200_000_001, 200_000_001, -1, 1_000_000_001, i32::MIN, i32::MAX]),
    };
    run[place..][..width].copy_from_slice(&beyond.to_le_bytes()[..width]);
}

fn edge_or_any(random: &mut Random, count: usize) -> usize {
    match random.below(4) {
        0 => 0,
        1 => count - 1,
        _ => random.below(count as u64) as usize,
    }
}

/// The other form's length, with its mark or with the one that is there.
fn other_length(random: &mut Random, form: Form, run: &mut Vec<u8>) {
    run.resize(other(form).run_length(), 0);
    if random.one_in(2) {
        other_mark(form, run);
    }
}

fn length(random: &mut Random, run: &mut Vec<u8>) {
    let length = match random.below(2) {
        0 => random.pick(&[0, 1, 3, 4, 6, 16, 30, 4553, 4555, 4608, 5059, 5061, 5120]),
        _ => random.below(6000) as usize,
    };
    run.resize(length, 0);
}

/// The run as it is, or where it has no form's length, cut off or filled up to one.
pub fn of_some_form(random: &mut Random, run: &mut Vec<u8>) {
    if Form::of_run(run.len()).is_none() {
        run.resize(random.pick(&FORMS).run_length(), 0);
    }
}

#[cfg(test)]
mod tests {
    use super::*;
    use crate::bases::Draft;
    use crate::engine::refusal::Refusal;
    use crate::engine::run::Run;
    use std::collections::BTreeSet;

    fn plain(form: Form) -> Vec<u8> {
        Draft::plain(2006, 2006).in_form(form).run
    }

    /// The first and the last entry of each table come to be the one that is refused, and both ends of the zero bytes.
    #[test]
    fn damage_leads_to_both_ends_of_every_table() {
        let mut random = Random::new(1);
        for form in FORMS {
            let mut met = BTreeSet::new();
            for _ in 0..20_000 {
                let mut run = plain(form);
                damage(&mut random, &mut run);
                if let Err(Refusal { number, first, .. }) = Run::accept(&run)
                    && run.len() == form.run_length()
                {
                    met.insert((number, first as usize));
                }
            }
            let ends = |table| [form.offset(table), form.stretch(table).end - form.width(table)];
            let fields = TABLES.into_iter().flat_map(ends).chain([4, 6, 8, 12]).map(|offset| (5, offset));
            let tail = form.tail();
            let zeros = if tail.is_empty() { vec![] } else { vec![tail.start, tail.end - 1] };
            let marks = [0, 1, 2, 3, 16, 29].into_iter().chain(zeros).map(|offset| (4, offset));
            for refusal in fields.chain(marks) {
                assert!(met.contains(&refusal), "{form} never refused as {refusal:?}");
            }
        }
    }

    /// At either length the mark of the other form is the wrong one, in its last byte.
    #[test]
    fn damage_leads_to_the_mark_of_the_other_form() {
        let mut random = Random::new(3);
        for form in FORMS {
            let (mut by_mark, mut by_length) = (0, 0);
            for _ in 0..2000 {
                let mut run = plain(form);
                damage(&mut random, &mut run);
                if Run::accept(&run).err() == Some(Refusal::mark(3)) {
                    by_mark += u32::from(run[..4] == other(form).mark() && run.len() == form.run_length());
                    by_length += u32::from(run[..4] == form.mark() && run.len() == other(form).run_length());
                }
            }
            assert!(by_mark > 10 && by_length > 10, "{form} {by_mark} {by_length}");
        }
    }

    #[test]
    fn of_several_entries_the_first_is_named() {
        let mut random = Random::new(2);
        for form in FORMS {
            for _ in 0..2000 {
                let sound = plain(form);
                let mut run = sound.clone();
                entries(&mut random, form, &mut run);
                // each entry put back alone leaves the refusal where it is, or moves it further on
                if let Err(Refusal { number: 5, first, .. }) = Run::accept(&run) {
                    let offset = first as usize;
                    let table = TABLES.into_iter().find(|&table| form.stretch(table).contains(&offset)).unwrap();
                    let entry = offset..offset + form.width(table);
                    let mut mended = run.clone();
                    mended[entry.clone()].copy_from_slice(&sound[entry]);
                    assert!(Run::accept(&mended).err().is_none_or(|later| later.first > first));
                }
            }
        }
    }
}
