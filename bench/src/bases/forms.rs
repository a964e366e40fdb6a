//! Runs of the new form: the fields of an old one with each P times 100, and with P that are no whole per cents.
use super::draft::{Component, Draft};
use crate::engine::form::{FORMS, Form};
use crate::random::Random;

/// The run of the new form with the fields of this one of the old form, each P times 100. The offsets are those of 01.
pub fn in_hundredths(run: &[u8]) -> Vec<u8> {
    assert_eq!((run.len(), &run[..4]), (4554, b"MPB1".as_slice()));
    let proportions = |bytes: &[u8]| -> Vec<u8> {
        bytes.iter().flat_map(|&per_cents| (100 * u16::from(per_cents)).to_le_bytes()).collect()
    };
    let tail = [0; 106];
    [b"MPB2", &run[4..1733], &proportions(&run[1733..1864]), &run[1864..4285], &proportions(&run[4285..]), &tail]
        .concat()
}

pub fn other(form: Form) -> Form {
    match form {
        Form::Mpb1 => Form::Mpb2,
        Form::Mpb2 => Form::Mpb1,
    }
}

/// The draft of an old run in either form; in the new one with some P, or all, or none that are no whole per cents.
pub fn in_either_form(random: &mut Random, draft: Draft) -> Draft {
    let mut draft = draft.in_form(random.pick(&FORMS));
    if draft.form() == Form::Mpb1 {
        return draft;
    }
    match random.below(8) {
        0 | 1 => {}
        2 | 3 => fraction_somewhere(random, &mut draft),
        4 => (0..random.between(2, 5)).for_each(|_| fraction_somewhere(random, &mut draft)),
        _ => every_proportion(&mut draft, |hundredths| near(random, hundredths)),
    }
    draft
}

/// One P becomes no whole per cent, often the first or the last of its table.
pub fn fraction_somewhere(random: &mut Random, draft: &mut Draft) {
    let component = random.pick(&[Component::Age, Component::BirthYear]);
    let last = component.entries() - 1;
    let any = random.below(last as u64 + 1) as usize;
    let index = random.pick(&[0, last, any]);
    let per_cents = draft.proportion(component, index) / 100;
    // what is left of 100 keeps 150 per cent within the limits
    let drawn = random.between(1, 99) as u16;
    let beyond = random.pick(&[1, 50, 99, drawn]);
    let hundredths = 100 * per_cents.min(149) + beyond;
    draft.set_proportion(component, index, hundredths);
}

fn every_proportion(draft: &mut Draft, mut change: impl FnMut(u16) -> u16) {
    for component in [Component::Age, Component::BirthYear] {
        for index in 0..component.entries() {
            let hundredths = draft.proportion(component, index);
            draft.set_proportion(component, index, change(hundredths));
        }
    }
}

/// Less than a per cent away, now and then at or next to a limit.
fn near(random: &mut Random, hundredths: u16) -> u16 {
    if random.one_in(16) {
        return random.pick(&[0, 1, 99, 101, 14_899, 14_901, 14_999, 15_000]);
    }
    (i64::from(hundredths) + random.between(-99, 99)).clamp(0, 15_000) as u16
}

#[cfg(test)]
mod tests {
    use super::*;
    use crate::bases::valid;
    use crate::engine::file::write_old_form;
    use crate::engine::run::Run;
    use std::collections::BTreeSet;

    #[test]
    fn drafts_of_both_forms_are_accepted() {
        let mut random = Random::new(1);
        let kinds = [
            valid::modest,
            valid::anywhere,
            valid::extreme,
            valid::brink,
            valid::edge,
            valid::uneven,
            valid::slow,
            valid::at_limits,
        ];
        for kind in kinds {
            let mut met = [0; 2];
            for _ in 0..40 {
                let draft = kind(&mut random);
                let draft = in_either_form(&mut random, draft);
                met[Run::accept(&draft.run).expect("within its limits").form as usize] += 1;
            }
            assert!(met[0] > 5 && met[1] > 5, "{met:?}");
        }
    }

    /// Of the new form some can be written in the old one, and of the others the first that cannot is at either end of
    /// either table, or between.
    #[test]
    fn the_first_fraction_is_at_either_end_of_either_table() {
        let mut random = Random::new(2);
        let mut met = BTreeSet::new();
        for _ in 0..2000 {
            let draft = in_either_form(&mut random, Draft::plain(2006, 2006));
            if draft.form() == Form::Mpb2 {
                let written = write_old_form(&draft.run, &mut [0; 4608]);
                met.insert(written.map_or_else(|refusal| refusal.first, |()| 0));
            }
        }
        assert!([0, 1733, 1993, 4416, 4952].iter().all(|place| met.contains(place)), "{met:?}");
        assert!(met.len() > 50);
    }

    #[test]
    fn the_same_fields_in_hundredths() {
        let draft = Draft::benchmark();
        let new = draft.clone().in_form(Form::Mpb2);
        assert_eq!((new.run.len(), &new.run[..4]), (5060, b"MPB2".as_slice()));
        assert_eq!((new.run[4..1733] == draft.run[4..1733], &new.run[4954..]), (true, [0; 106].as_slice()));
        assert_eq!(new.run[1995..4416], draft.run[1864..4285]);
        for component in [Component::Age, Component::BirthYear] {
            for index in 0..component.entries() {
                assert_eq!(new.proportion(component, index), 5_000);
            }
        }
    }
}
