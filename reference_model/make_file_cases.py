"""Writes the cases of `check_files`: files read and written, in the old form too, and short forms.

Run with `python3 -m reference_model.make_file_cases [folder]` from the folder that holds `crates/`.

Standard input, all numbers little-endian: the realistic basis as two files, in the old form (4,608
bytes) and in the new (5,120); then cases to the end. A case is its kind (1 byte: 0 read, 1 write,
2 short form, 3 write in the old form), its base (1: 0 for the first file, 1 for the second), input
length (2), output length (2), S (4, two's complement), number of patches (2), and for each patch an
offset (2) and a byte (1). The input is the base's file for kind 0, else its data run, cut or extended
with zero bytes to the input length and then patched. The output is filled with place % 251 at each
place before the call. Expected, a line a case: the refusal's number and places, zeros where there is
none, and the sum of (place + 1) x byte over the output after the call, modulo 2^32.
"""

import random

from reference_model.bases import limits_basis, random_basis, realistic, sample
from reference_model.basis import (encode, encode_file, form_needed, in_form, read_file, run_length_needed,
                                   short_form, write_file, write_old_form)
from reference_model.damage import damaged_runs, of_length, with_flipped, with_number, with_numbers
from reference_model.damaged_files import damaged_files
from reference_model.finer_bases import fitted, fitted_table_of_2000
from reference_model.layout import MPB1, MPB2
from reference_model.older_bases import table_of_2000
from reference_model.refusals import Refusal, outcome
from reference_model.vectors import command, expected_output, write

READ, WRITE, SHORT_FORM, WRITE_OLD_FORM = 0, 1, 2, 3
LONGEST = 5_200  # of inputs and outputs: the program's room

RUN, NEW_RUN = encode(realistic()), encode(in_form(realistic(), MPB2))
FILE, NEW_FILE = encode_file(RUN), encode_file(NEW_RUN)
# One P is no whole per cent, and all of them are none.
FINER, FITTED = with_number(NEW_RUN, 1_733, 2, 3_333), encode(fitted())


def needed(kind, content):
    """The bytes of output that this input needs."""
    if kind == READ:
        return run_length_needed(content)
    if kind == WRITE_OLD_FORM:
        return MPB1.file_length
    return form_needed(content).file_length if kind == WRITE else form_needed(content).run_length


def patches_of(base, content):
    lent = of_length(base, len(content))
    return [(place, byte) for place, byte in enumerate(content) if byte != lent[place]]


def asked_about(kind, content, output_length, long_term_rate):
    """The bytes of a case, on the base that it differs from in fewer places."""
    patches = [patches_of(base, content)
               for base in ((FILE, NEW_FILE) if kind == READ else (RUN, NEW_RUN))]
    base = 1 if len(patches[1]) < len(patches[0]) else 0
    asked = bytes([kind, base])
    for number, width in ((len(content), 2), (output_length, 2), (long_term_rate % 2 ** 32, 4),
                          (len(patches[base]), 2)):
        asked += number.to_bytes(width, "little")
    return asked + b"".join(place.to_bytes(2, "little") + bytes([byte])
                            for place, byte in patches[base])


def answer_of(kind, content, output_length, long_term_rate):
    if kind == SHORT_FORM:
        return outcome(short_form, content, long_term_rate, output_length)
    call = {READ: read_file, WRITE: write_file, WRITE_OLD_FORM: write_old_form}[kind]
    return outcome(call, content, output_length)


def case(kind, content, output_length=None, long_term_rate=0):
    """The bytes of one case and its line of the answer."""
    if output_length is None:
        output_length = needed(kind, content)
    assert len(content) <= LONGEST and output_length <= LONGEST
    answer = answer_of(kind, content, output_length, long_term_rate)
    output = bytearray(place % 251 for place in range(output_length))
    refusal = (0, 0, 0)
    if isinstance(answer, Refusal):
        refusal = answer.numbers()
    else:
        output[:len(answer)] = answer
    weighed = sum((place + 1) * byte for place, byte in enumerate(output)) % 2 ** 32
    return (asked_about(kind, content, output_length, long_term_rate),
            "%d %d %d %d" % (refusal + (weighed,)))


# ---- the cases, of one form after the other

def other_bases(form):
    if form == MPB1:
        bases = (sample(), random_basis(11, -200_000_000, 200_000_000),
                 random_basis(12, 0, 9_000_000), limits_basis(13), table_of_2000().basis)
    else:
        bases = (in_form(sample(), form), random_basis(14, -200_000_000, 200_000_000, form=form),
                 random_basis(15, 0, 9_000_000, form=form), limits_basis(16, form), fitted(),
                 fitted_table_of_2000().basis)
    return [encode(basis) for basis in bases]


def sound_cases(form, run):
    """Accepted inputs, with an output that is exact, longer, or longest."""
    for each in [run] + other_bases(form):
        yield case(READ, encode_file(each))
        yield case(WRITE, each)
        yield case(SHORT_FORM, each, None, 12_345_678)
    for kind, content in ((READ, encode_file(run)), (WRITE, run), (SHORT_FORM, run)):
        exact = needed(kind, content)
        for output_length in (exact + 1, exact + 2, min(exact + 100, LONGEST), 5_000, LONGEST):
            if output_length > exact:
                yield case(kind, content, output_length)


def short_output_cases(form, run):
    """11 comes before everything that could be said of the input."""
    for kind, content in ((READ, encode_file(run)), (WRITE, run), (SHORT_FORM, run)):
        for output_length in (0, 1, 2_000, needed(kind, content) - 1):
            yield case(kind, content, output_length)
            yield case(kind, with_flipped(content, 5), output_length)
            yield case(kind, content[:-1], output_length)
            yield case(kind, b"", output_length, 2 ** 31 - 1 if kind == SHORT_FORM else 0)


def damage_cases(form, run):
    """Every damage; every third into a longer output, of which nothing may be changed."""
    def further(kind, content, place):
        return min(LONGEST, needed(kind, content) + (place % 3 == 2) * place)
    for place, damage in enumerate(damaged_files(encode_file(run), run)):
        yield case(READ, damage.content, further(READ, damage.content, place))
    for place, damage in enumerate(damaged_runs(run)):
        yield case(WRITE, damage.content, further(WRITE, damage.content, place))


def short_form_cases(form, run):
    for long_term_rate in (0, 1, -1, 14, 15, 16, -14, -15, -16, 29, 30, 31, 10_000_000, -10_000_000,
                           7_777_777, -7_777_777, 199_999_999, -199_999_999, 200_000_000,
                           -200_000_000, 200_000_001, -200_000_001, 2 ** 31 - 1, -2 ** 31):
        yield case(SHORT_FORM, run, None, long_term_rate)
    draw = random.Random(5).randint
    for _ in range(20):
        yield case(SHORT_FORM, run, None, draw(-200_000_000, 200_000_000))
    # A refused run comes before an S beyond its limit, and a good S does not save it.
    for place, damage in enumerate(damaged_runs(run)):
        if place % 4 == 0 or damage.expected == Refusal(1):
            yield case(SHORT_FORM, damage.content, needed(SHORT_FORM, damage.content) + place % 7,
                       (0, 10_000_000, 200_000_001, -2 ** 31)[place // 4 % 4])
    # An L, T or P outside its limits is refused, although the short form would replace it.
    for name, number in (("age_long_term_rates", 200_000_001), ("age_convergence_periods", 0),
                         ("age_proportions_remaining", form.greatest_proportion + 1),
                         ("cohort_long_term_rates", -200_000_001), ("cohort_convergence_periods", 51),
                         ("cohort_proportions_remaining", 256 ** form.proportion_width - 1)):
        refused = with_number(run, form.table(name).offset, form.table(name).width, number)
        yield case(SHORT_FORM, refused, None, 10_000_000)
        yield case(SHORT_FORM, refused, None, -200_000_001)


# ---- between the forms

def any_other_length_cases():
    """The output that they need is the old form's: one byte less is 11, that much is 1."""
    for kind, base, lengths in ((READ, NEW_FILE, (0, 1, 4_607, 4_609, 5_060, 5_119, 5_121)),
                                (WRITE, NEW_RUN, (0, 1, 4_553, 4_555, 4_608, 5_059, 5_061, 5_120)),
                                (SHORT_FORM, NEW_RUN, (0, 4_553, 4_555, 4_608, 5_059, 5_061, 5_120))):
        old = MPB1.run_length if kind != WRITE else MPB1.file_length
        for length in lengths:
            for output_length in (old - 1, old, LONGEST):
                yield case(kind, of_length(base, length), output_length, 200_000_001)
    # And that of a form's length is the form's own, whatever its mark says.
    for kind, content in ((READ, of_length(FILE, MPB2.file_length)), (WRITE, of_length(RUN, 5_060)),
                          (READ, NEW_FILE[:MPB1.file_length]), (WRITE, NEW_RUN[:4_554]),
                          (SHORT_FORM, of_length(RUN, 5_060)), (SHORT_FORM, NEW_RUN[:4_554])):
        for output_length in (needed(kind, content) - 1, needed(kind, content)):
            yield case(kind, content, output_length)


def old_form_cases():
    """Accepted of either form, and refused by 11, 1, 4 and 5, also where 17 would come after them."""
    for run in [RUN, NEW_RUN, FITTED, *other_bases(MPB1), encode(in_form(sample(), MPB2)),
                encode(in_form(limits_basis(13), MPB2)), encode(in_form(table_of_2000().basis, MPB2))]:
        yield case(WRITE_OLD_FORM, run)
    for run in (RUN, NEW_RUN, FINER):
        for output_length in (0, 1, 2_000, 4_607):
            yield case(WRITE_OLD_FORM, run, output_length)
            yield case(WRITE_OLD_FORM, with_flipped(run, 5), output_length)
            yield case(WRITE_OLD_FORM, run[:-1], output_length)
        for output_length in (4_609, 5_120, LONGEST):
            yield case(WRITE_OLD_FORM, run, output_length)
        for place, damage in enumerate(damaged_runs(run)):
            yield case(WRITE_OLD_FORM, damage.content, 4_608 + (place % 3 == 2) * place)


FIRST_AGE_P, LAST_AGE_P, FIRST_BIRTH_YEAR_P, LAST_BIRTH_YEAR_P = 1_733, 1_993, 4_416, 4_952


def whole_per_cent_cases():
    """17 at the first P that is no whole per cent, and after every 4 and 5."""
    places = FIRST_AGE_P, LAST_AGE_P, FIRST_BIRTH_YEAR_P, LAST_BIRTH_YEAR_P
    for offset in places:
        for proportion in (0, 1, 50, 99, 100, 101, 150, 256, 4_999, 12_850, 14_900, 14_999, 15_000,
                           15_001, 15_100, 65_535):
            yield case(WRITE_OLD_FORM, with_number(NEW_RUN, offset, 2, proportion))
    for place, first in enumerate(places):
        for later in places[place + 1:]:
            # 17 twice; then 5 at the later one, which comes before 17 at the first.
            for numbers in ((1_234, 99), (1_234, 15_001), (1_234, 15_100), (15_100, 1_234)):
                yield case(WRITE_OLD_FORM, with_numbers(NEW_RUN, (first, 2, numbers[0]),
                                                        (later, 2, numbers[1])))


def input_and_output():
    """The bytes of standard input and of the expected standard output."""
    cases = [made for form, run in ((MPB1, RUN), (MPB2, NEW_RUN))
             for group in (sound_cases, short_output_cases, damage_cases, short_form_cases)
             for made in group(form, run)]
    cases += [made for group in (any_other_length_cases, old_form_cases, whole_per_cent_cases)
              for made in group()]
    return (FILE + NEW_FILE + b"".join(asked for asked, _ in cases),
            expected_output([line for _, line in cases]))


def main():
    options = command("Writes the cases of check_files.", "crates/check_files").parse_args()
    write(options.folder, *input_and_output())


if __name__ == "__main__":
    main()
