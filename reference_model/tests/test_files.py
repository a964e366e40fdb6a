"""Files and data runs of both forms: round trips, every damage with its refusal, the short form, the
tables, and the old form.
"""

import unittest

from reference_model.bases import limits_basis, named_bases, random_basis, realistic
from reference_model.basis import (check_file, check_run, decode, default_period_at, encode, encode_file, in_form,
                                   long_term_rate_at, read_file, short_form, table, write_file, write_old_form)
from reference_model.blocks import joined_data
from reference_model.damage import damaged_runs, of_length, with_number, with_numbers
from reference_model.damaged_files import damaged_files
from reference_model.finer_bases import finer_bases, finer_celled_bases, fitted, gentle_finer_bases
from reference_model.layout import FORMS, MPB1, MPB2
from reference_model.refusals import Refusal, outcome
from reference_model.units import AGES, rounded

RUN, FITTED = encode(realistic()), encode(fitted())
FILE = encode_file(RUN)
RUNS = (RUN, FITTED)


def run_length_by_hand(file_length):
    return 5_060 if file_length == 5_120 else 4_554


def file_length_by_hand(run_length):
    return 5_120 if run_length == 5_060 else 4_608


class Forms(unittest.TestCase):
    def test_lengths_and_offsets(self):
        """As the papers have them: only what comes after the first P differs."""
        self.assertEqual([(form.run_length, form.file_length, form.greatest_proportion)
                          for form in FORMS], [(4_554, 4_608, 150), (5_060, 5_120, 15_000)])
        for form, offsets in ((MPB1, (30, 554, 1078, 1602, 1733, 1864, 2940, 4016, 4285)),
                              (MPB2, (30, 554, 1078, 1602, 1733, 1995, 3071, 4147, 4416))):
            self.assertEqual(tuple(each.offset for each in form.tables), offsets)
        before = tuple(range(16, 30))
        self.assertEqual(MPB1.zero_offsets, before)
        self.assertEqual(MPB2.zero_offsets, before + tuple(range(4_954, 5_060)))

    def test_the_same_fields_in_both(self):
        """By hand: the bytes from the mark on, each P byte replaced by two."""
        new = encode(in_form(realistic(), MPB2))
        by_age, by_birth_year = RUN[1733:1864], RUN[4285:]
        doubled = [b"".join((100 * p).to_bytes(2, "little") for p in each)
                   for each in (by_age, by_birth_year)]
        self.assertEqual(new, b"MPB2" + RUN[4:1733] + doubled[0] + RUN[1864:4285] + doubled[1]
                         + bytes(106))


class RoundTrips(unittest.TestCase):
    def round_trip(self, basis):
        """In the basis's own form."""
        run = encode(basis)
        self.assertEqual((len(run), decode(run)), (basis.form.run_length, basis))
        file = write_file(run)
        self.assertEqual((len(file), read_file(file)), (basis.form.file_length, run))

    def test_every_named_basis(self):
        celled = {name: each.basis for name, each in finer_celled_bases().items()}
        for name, basis in {**named_bases(), **finer_bases(), **gentle_finer_bases(), **celled}.items():
            with self.subTest(name):
                self.round_trip(basis)

    def test_random_bases(self):
        for seed in range(10):
            for form in FORMS:
                self.round_trip(random_basis(seed, -200_000_000, 200_000_000, form=form))
                self.round_trip(limits_basis(seed, form))


class Damages(unittest.TestCase):
    def test_runs(self):
        for damage in (damage for run in RUNS for damage in damaged_runs(run)):
            with self.subTest(damage.name):
                self.assertEqual(outcome(check_run, damage.content), damage.expected)
                accepted = (encode_file(damage.content) if damage.expected is None
                            else damage.expected)
                self.assertEqual(outcome(write_file, damage.content), accepted)
                needed = file_length_by_hand(len(damage.content))
                self.assertEqual(outcome(write_file, damage.content, needed), accepted)
                self.assertEqual(outcome(write_file, damage.content, needed - 1), Refusal(11, needed))

    def test_files(self):
        for damage in (damage for run in RUNS for damage in damaged_files(encode_file(run), run)):
            with self.subTest(damage.name):
                self.assertEqual(outcome(check_file, damage.content), damage.expected)
                accepted = (joined_data(damage.content) if damage.expected is None
                            else damage.expected)
                self.assertEqual(outcome(read_file, damage.content), accepted)
                needed = run_length_by_hand(len(damage.content))
                self.assertEqual(outcome(read_file, damage.content, needed), accepted)
                self.assertEqual(outcome(read_file, damage.content, needed - 1), Refusal(11, needed))

    def test_the_damages_do_damage(self):
        """Every named damage changes the bytes, but where a field already stands at that number."""
        for run in RUNS:
            unchanged = [damage.name for damage in damaged_runs(run)
                         if damage.content == run and damage.expected is not None]
            self.assertEqual(unchanged, [])
            found = {damage.expected.number for damage in damaged_files(encode_file(run), run)
                     if damage.expected}
            self.assertEqual(found, {1, 2, 3, 4, 5})

    def test_every_length(self):
        """All but two are 1, after 11 by the old form's length."""
        for length in range(5_201):
            for run in RUNS:
                content = of_length(run, length)
                if length not in (4_554, 5_060):
                    self.assertEqual(outcome(write_file, content, 4_608), Refusal(1))
                    self.assertEqual(outcome(write_file, content, 4_607), Refusal(11, 4_608))
                elif length != len(run):
                    self.assertEqual(outcome(write_file, content), Refusal(4, 3))

    def test_old_bytes_under_the_new_mark(self):
        """65 pairs of P 50 are within the limits, and then comes the first byte of a birth-year I."""
        content = of_length(b"MPB2" + RUN[4:], 5_060)
        self.assertEqual(outcome(check_run, content), Refusal(5, 1_863))

    def test_longer_output(self):
        for run in RUNS:
            self.assertEqual(read_file(encode_file(run), 5_200), run)
            self.assertEqual(write_file(run, 5_200), encode_file(run))


class ShortForm(unittest.TestCase):
    def test_shares_by_their_formula(self):
        """02, change 4: 30 less what the age exceeds 90, never below 0 nor above 30."""
        shares = [min(30, max(0, 30 - (age - 90))) for age in AGES]
        self.assertEqual([shares[age - 20] for age in (20, 90, 91, 119, 120, 150)],
                         [30, 30, 29, 1, 0, 0])
        for rate in (1, -1, 15, -15, 10_000_000, -7_777_777, 200_000_000, -200_000_000):
            self.assertEqual([long_term_rate_at(age, rate) for age in AGES],
                             [rounded(rate * share, 30) for share in shares])

    def test_periods_by_age(self):
        """02, change 8, age by age: 20 to 61, each year less for two ages from 62 on, 5 from 90 on."""
        falling = [period for period in range(19, 5, -1) for _ in range(2)]
        expected = [20] * 42 + falling + [5] * 61
        self.assertEqual([default_period_at(age) for age in AGES], expected)
        self.assertEqual([expected[age - 20] for age in (60, 61, 62, 89, 90, 91)],
                         [20, 20, 19, 6, 5, 5])
        for run in RUNS:
            for rate in (0, -200_000_000):
                shortened = decode(short_form(run, rate))
                self.assertEqual(list(shortened.age_convergence_periods), expected)
                self.assertEqual(list(shortened.cohort_convergence_periods), [20] * 269)

    def test_only_long_term_rates_and_courses_differ(self):
        for run, half in ((RUN, 50), (FITTED, 5_000)):
            before, after = decode(run), decode(short_form(run, -7_000_001))
            for name, number in vars(before).items():
                if "long_term" in name or "convergence" in name or "proportions" in name:
                    self.assertEqual(len(set(getattr(after, name))) > 1,
                                     name in ("age_long_term_rates", "age_convergence_periods"))
                else:
                    self.assertEqual(getattr(after, name), number)
            self.assertEqual(set(after.cohort_long_term_rates), {0})
            self.assertEqual(set(after.cohort_convergence_periods), {20})
            self.assertEqual(set(after.age_proportions_remaining
                                 + after.cohort_proportions_remaining), {half})
            self.assertEqual(len(after.age_long_term_rates), len(AGES))

    def test_the_form_is_kept(self):
        for run in RUNS:
            shortened = short_form(run, 10_000_000)
            self.assertEqual((len(shortened), shortened[:4]), (len(run), run[:4]))
        self.assertEqual(short_form(FITTED, 10_000_000)[4_954:], bytes(106))
        self.assertEqual(encode(in_form(decode(short_form(RUN, 7)), MPB2)),
                         short_form(encode(in_form(realistic(), MPB2)), 7))

    def test_order(self):
        for run, needed in ((RUN, 4_554), (FITTED, 5_060)):
            self.assertEqual(outcome(short_form, run, 200_000_001), Refusal(5, 1078))
            self.assertEqual(outcome(short_form, run, -200_000_001), Refusal(5, 1078))
            self.assertEqual(outcome(short_form, run, 200_000_001, needed - 1), Refusal(11, needed))
            # Of any other length: the old form's output, and then 1.
            self.assertEqual(outcome(short_form, run[:-1], 200_000_001, 4_553), Refusal(11, 4_554))
            self.assertEqual(outcome(short_form, run[:-1], 200_000_001, 4_554), Refusal(1))
            for rate in (200_000_000, -200_000_000):
                self.assertIsNone(outcome(check_run, short_form(run, rate)))
        broken = with_number(RUN, 4_553, 1, 151)
        self.assertEqual(outcome(short_form, broken, 200_000_001), Refusal(5, 4_553))
        broken = with_number(FITTED, 4_952, 2, 15_001)
        self.assertEqual(outcome(short_form, broken, 200_000_001), Refusal(5, 4_952))


class OldForm(unittest.TestCase):
    NEW = encode(in_form(realistic(), MPB2))

    def test_the_same_fields(self):
        """Of either form, and what is written reads back as the old form's run."""
        for basis in named_bases().values():
            file = write_old_form(encode(in_form(basis, MPB2)))
            self.assertEqual(file, write_old_form(encode(basis)))
            self.assertEqual(file, write_file(encode(basis)))
            self.assertEqual(decode(read_file(file)), basis)

    def test_no_whole_per_cent(self):
        places = (1_733, 1_993, 4_416, 4_952)
        for offset in places:
            for proportion in (1, 99, 101, 4_999, 14_999):
                self.assertEqual(outcome(write_old_form, with_number(self.NEW, offset, 2, proportion)),
                                 Refusal(17, offset))
            for proportion in (0, 100, 4_900, 15_000):
                self.assertEqual(len(write_old_form(with_number(self.NEW, offset, 2, proportion))),
                                 4_608)
            for proportion in (15_001, 15_100):
                self.assertEqual(outcome(write_old_form, with_number(self.NEW, offset, 2, proportion)),
                                 Refusal(5, offset))
        # The first of two; and 5 comes before 17, wherever it stands.
        for first, later in zip(places, places[1:]):
            two = with_numbers(self.NEW, (first, 2, 1), (later, 2, 1))
            self.assertEqual(outcome(write_old_form, two), Refusal(17, first))
            self.assertEqual(outcome(write_old_form, with_number(two, later, 2, 15_001)),
                             Refusal(5, later))
        self.assertEqual(outcome(write_old_form, FITTED), Refusal(17, 1_733))

    def test_order(self):
        """11 by 4,608 whatever the run's length, then the run's own refusals, then 17."""
        finer = with_number(self.NEW, 1_733, 2, 3_333)
        for run in (RUN, self.NEW, finer):
            for damage in damaged_runs(run):
                self.assertEqual(outcome(write_old_form, damage.content, 4_607), Refusal(11, 4_608))
                if damage.expected is not None:
                    self.assertEqual(outcome(write_old_form, damage.content), damage.expected)
        self.assertEqual(outcome(write_old_form, finer, 4_608), Refusal(17, 1_733))
        self.assertEqual(write_old_form(self.NEW, 4_608), FILE)


class Tables(unittest.TestCase):
    def test_the_nine_stretches_fill_the_run(self):
        for run, end in ((RUN, 4_554), (FITTED, 4_954)):
            stretches = [bytes(table(run, each.name)) for each in MPB1.tables]
            self.assertEqual(len(stretches), 9)
            self.assertEqual(b"".join(stretches), run[30:end])

    def test_proportions_of_the_new_form(self):
        """As they stand in the run: two bytes each, in hundredths of a per cent."""
        by_age = bytes(table(FITTED, "age_proportions_remaining"))
        by_birth_year = bytes(table(FITTED, "cohort_proportions_remaining"))
        self.assertEqual((len(by_age), len(by_birth_year)), (262, 538))
        self.assertEqual((by_age[:2], by_birth_year[-2:]), ((3_333).to_bytes(2, "little"),
                                                            (7_474).to_bytes(2, "little")))

    def test_a_refused_run_gives_nothing(self):
        self.assertEqual(len(table(with_number(RUN, 29, 1, 1), "base_rates")), 0)
        self.assertEqual(len(table(with_number(FITTED, 5_059, 1, 1), "base_rates")), 0)


if __name__ == "__main__":
    unittest.main()
