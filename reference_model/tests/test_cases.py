"""The written cases, read back as the test programs do, give the answers written with them."""

import struct
import unittest
from collections import Counter
from functools import cache

from reference_model import make_answer_cases, make_file_cases, make_reader_cases
from reference_model.basis import encode, read_file, short_form, write_file, write_old_form
from reference_model.blocks import joined_data
from reference_model.distances import read_cases
from reference_model.enquiries import KINDS, ask
from reference_model.make_answer_cases import line_of
from reference_model.refusals import Refusal, outcome
from reference_model.rounding_bases import celled_bases
from reference_model.tests.other_joinings import apart, ask_with


answer_cases = cache(make_answer_cases.input_and_output)


def answered(function, *arguments):
    """The answer and the refusal's numbers, one of them empty."""
    try:
        return function(*arguments), (0, 0, 0)
    except Refusal as refusal:
        return b"", refusal.numbers()


def file_case_lines(text):
    """What a program that follows the format's description prints."""
    files, place, lines = (text[:4_608], text[4_608:9_728]), 9_728, []
    while place < len(text):
        kind, base, input_length, output_length, rate, patches = struct.unpack_from("<BBHHiH", text,
                                                                                    place)
        place += 12
        content = files[base] if kind == 0 else joined_data(files[base])
        lent = bytearray((content + bytes(5_200))[:input_length])
        for _ in range(patches):
            offset, byte = struct.unpack_from("<HB", text, place)
            place += 3
            lent[offset] = byte
        output = bytearray(i % 251 for i in range(output_length))
        if kind == 2:
            answer, numbers = answered(short_form, bytes(lent), rate, output_length)
        else:
            call = (read_file, write_file, None, write_old_form)[kind]
            answer, numbers = answered(call, bytes(lent), output_length)
        output[:len(answer)] = answer
        assert len(output) == output_length <= 5_200 and input_length <= 5_200
        total = sum((i + 1) * byte for i, byte in enumerate(output)) % 4_294_967_296
        lines.append("%d %d %d %d" % (numbers + (total,)))
    return lines


def answer_case_lines(text):
    (total,) = struct.unpack_from("<I", text)
    lent, lines, place = text[4:4 + total], [], 4 + total
    assert len(lent) == total <= 1_048_576

    def stretch(start, length):
        return lent[start:start + length] if start + length <= total else b""
    while place < len(text):
        kind, age, deferment, year, *stretches = struct.unpack_from("<BIIIIIII", text, place)
        place += 29
        run, history = stretch(*stretches[:2]), stretch(*stretches[2:])
        try:
            lines.append("value %d" % ask(run, history, KINDS[kind], age, deferment, year))
        except Refusal as refusal:
            lines.append("refused %d %d %d" % refusal.numbers())
    return lines


def reader_cases(text):
    """The cases of the two readers: data run, history, and the questions of its lifelines."""
    place = 0
    while place < len(text):
        length, history_length = struct.unpack_from("<II", text, place)
        start = place + 8
        history_start, place = start + length, start + length + history_length
        (count,) = struct.unpack_from("<H", text, place)
        questions = [struct.unpack_from("<III", text, place + 2 + 12 * each) for each in range(count)]
        yield text[start:history_start], text[history_start:place], questions
        place += 2 + 12 * count


def difference(line, other):
    """What another engine's line is beside the right one."""
    (word, number, *_), (other_word, other_number, *_) = line.split(), other.split()
    if line == other:
        return "the same"
    if word != other_word:
        return "answered" if other_word == "value" else "refused"
    if word == "refused":
        return "refused elsewhere"
    return "more" if int(other_number) > int(number) else "less"


def with_last_line(lines):
    return ("\n".join(lines + ["cases %d" % len(lines)]) + "\n").encode("ascii")


class WrittenCases(unittest.TestCase):
    def test_file_cases(self):
        asked, expected = make_file_cases.input_and_output()
        lines = file_case_lines(asked)
        self.assertEqual(with_last_line(lines), expected)
        found = Counter(line.split()[0] for line in lines)
        self.assertEqual(set(found), {"0", "1", "2", "3", "4", "5", "11", "17"})
        self.assertGreater(min(found.values()), 20)
        found = {line.rsplit(" ", 1)[0] for line in lines}
        # 11 by both forms' lengths, 17 at the first and the last of both tables, 4 in the tail.
        self.assertLessEqual({"11 4554 0", "11 4608 0", "11 5060 0", "11 5120 0", "17 1733 0", "17 1993 0",
                              "17 4416 0", "17 4952 0", "4 3 0", "4 4954 0", "4 5059 0", "5 4952 0"}, found)

    def test_answer_cases(self):
        asked, expected = answer_cases()
        lines = answer_case_lines(asked)
        self.assertEqual(with_last_line(lines), expected)
        found = Counter(" ".join(line.split()[:2]) for line in lines if line[0] == "r")
        self.assertEqual(set(found),
                         {"refused %d" % n for n in (1, 2, 3, 4, 5, 6, 7, 8, 9, 10, 13)})

    def test_every_refusal_of_a_history_through_all_nine_kinds(self):
        """And 13 both where a history is needed and where none is, and bases that are answered."""
        asked, expected = answer_cases()
        lines = expected.decode("ascii").splitlines()[:-1]
        found = {kind: set() for kind in range(9)}
        cases = struct.iter_unpack("<BIIIIIII", asked[-29 * len(lines):])
        for (kind, *_, length), line in zip(cases, lines):
            word, *numbers = line.split()
            if length:
                found[kind].add((numbers[0], numbers[1] == "0") if word == "refused" else word)
        for each in found.values():
            for number in ("2", "3", "4", "5"):
                self.assertIn((number, False), each)
            self.assertLessEqual({("13", False), ("13", True), "value"}, each)

    def test_reader_cases(self):
        """Tables that differ and empty ones; lifelines that go on, that end, that stop, that do not
        start, and whose survivors are those of the enquiry after so many years.
        """
        asked, expected = make_reader_cases.input_and_output()
        lines = iter(expected.decode("ascii").splitlines())
        cohort, found = KINDS[4], Counter()
        for run, history, questions in reader_cases(asked):
            stretches = [next(lines) for _ in range(9)]
            found["nine tables"] += len(set(stretches)) == 9
            found["no table"] += stretches == ["0 0 0"] * 9
            for age, year, steps in questions:
                stands, in_year, survivors = map(int, next(lines).split())
                if stands == 0:
                    found["not started"] += 1
                    self.assertIsInstance(outcome(ask, run, history, cohort, age, 0, year), Refusal)
                    continue
                self.assertEqual(in_year - year, stands - age)
                self.assertEqual(survivors, ask(run, history, cohort, age, stands - age, year))
                if stands == age + steps:
                    found["gone on"] += 1
                elif stands == 150:
                    found["ended"] += 1
                else:
                    found["stopped"] += 1
                    further = outcome(ask, run, history, cohort, age, stands - age + 1, year)
                    self.assertIn(further.number, (9, 10))
        self.assertEqual(next(lines, None), None)
        self.assertEqual(len(found), 6)
        self.assertGreater(min(found.values()), 5)

    def test_two_roundings_are_seen_in_every_kind(self):
        """They give more and less, answer where a refusal is right, and refuse what stands."""
        runs, cases = read_cases(*answer_cases())
        celled = [runs.index(encode(basis)) for basis, _ in celled_bases().values()]
        found = {kind: Counter() for kind in KINDS}
        for case in cases:
            if case.place in celled:
                two = line_of(outcome(ask_with, apart, runs[case.place], case.history, case.kind,
                                      *case.question))
                found[case.kind][difference(case.line, two)] += 1
        for kind, each in found.items():
            with self.subTest(kind):
                self.assertGreater(each["more"], 15)
                self.assertGreater(each["less"], 15)
                self.assertGreaterEqual(each["refused"], 4)
                # What goes on to other ages is refused at one of them, if not at the cell's own.
                self.assertGreater(each["answered"] + each["refused elsewhere"], 5)


if __name__ == "__main__":
    unittest.main()
