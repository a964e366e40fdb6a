"""CSVs as spreadsheets write them: encodings, separators, blank lines, and a bad row that costs no other member."""

import csv
import encodings.aliases
import hashlib
import io
import json
import random
import re
import subprocess
import sys
import unittest
from typing import Iterator, Optional

from parvusek import Basis
from parvusek.carried import Carried
from parvusek.csv_rows import NotCsv, Rows
from parvusek.csv_source import Source
from parvusek.members import value_members

from . import SAMPLE
from .command import Command

MEMBERS = "Name;AGE;Deferment; year \nMüller;65;0;2010\nO'Neill;45;20;2010\n"


class Encodings(Command):
    def written(self) -> bytes:
        return (self.folder / "values.csv").read_bytes()

    def is_valued(self, members: bytes, encoding: str, *options: object) -> str:
        """The values are in the encoding of the members, and so are the names."""
        status, said, wrong = self.value_bytes(members, *options)
        self.assertEqual((status, wrong), (0, ""), members[:20])
        self.assertIn("2 rows, 2 valued, 0 refused", said)
        text = self.written().decode(encoding)
        self.assertIn("Müller;65;0;2010;19.302119086;", text)
        return text

    def test_each_comes_out_as_it_came_in(self) -> None:
        plain = self.is_valued(MEMBERS.encode(), "utf-8")
        self.assertFalse(self.written().startswith(b"\xef\xbb\xbf"))
        marked = self.is_valued(MEMBERS.encode("utf-8-sig"), "utf-8")
        self.assertEqual(marked, "\ufeff" + plain)
        self.assertEqual(self.is_valued(MEMBERS.encode("cp1252"), "cp1252", "--encoding", "cp1252"), plain)
        self.assertEqual(self.is_valued(MEMBERS.encode("utf-16"), "utf-16"), plain)
        self.assertEqual(self.written()[:2], b"\xff\xfe")
        self.assertEqual(self.is_valued(b"\xfe\xff" + MEMBERS.encode("utf-16-be"), "utf-16"), plain)
        self.assertEqual(self.written()[:2], b"\xfe\xff")
        for options in ((), ("--encoding", "utf-32")):
            self.assertEqual(self.is_valued(MEMBERS.encode("utf-32"), "utf-32", *options), plain)
            self.assertEqual(self.written()[:4], b"\xff\xfe\0\0")
        self.assertEqual(self.is_valued(b"\0\0\xfe\xff" + MEMBERS.encode("utf-32-be"), "utf-32"), plain)

    def test_an_encoding_with_a_mark_that_the_file_lacks(self) -> None:
        """The mark is then not put before each block of the values either."""
        members = MEMBERS + "x;70;0;2010\n" * 20_000
        for encoding, written in (("utf-16", "utf-16-le"), ("utf-32", "utf-32-le"), ("utf-8-sig", "utf-8")):
            self.assertEqual(self.value_bytes(members.encode(written), "--encoding", encoding)[0], 0)
            text = self.written().decode(written)
            self.assertEqual((text.count("\ufeff"), text.count("\n")), (0, 20_003))

    def test_bytes_that_come_one_at_a_time(self) -> None:
        """A pipe may hand out the bytes of a mark, of a letter and of a line end one at a time."""
        class Pipe(io.BytesIO):
            def read(self, size: Optional[int] = -1) -> bytes:
                return super().read(1)

        for encoding in ("utf-8-sig", "utf-16", "utf-8"):
            members = MEMBERS.replace("\n", "\r\n").encode(encoding)
            source = Source(Pipe(members))
            written: list[bytes] = []
            counts = value_members(Basis.read(SAMPLE / "basis.bin"), source, written.append)
            self.assertEqual((counts.rows, counts.valued), (2, 2))
            self.assertEqual(source.sha256, hashlib.sha256(members).hexdigest())
            self.is_valued(members, encoding)
            self.assertEqual(b"".join(written), self.written())

    def test_a_wrong_byte_refuses_its_row_and_tells_the_remedy(self) -> None:
        status, said, wrong = self.value_bytes(MEMBERS.replace(";", ",").encode("cp1252"))
        self.assertEqual(status, 0)
        self.assertIn("2 rows, 1 valued, 1 refused: 1 by 12", said)
        self.assertEqual(wrong, "parvusek: refused for bytes of another encoding: 1 row, the first in line 2, character 2: byte "
                                "FC is not utf-8; if a spreadsheet on Windows wrote the file, give --encoding cp1252\n")
        rows = self.written().split(b"\n")
        self.assertTrue(rows[1].startswith(b"M\xfcller,65,0,2010,,,,,12,2,0,"), rows[1])
        self.assertIn(b"line 2): character 2: byte FC is not utf-8", rows[1])

    def test_a_wrong_byte_in_the_header(self) -> None:
        status, _, wrong = self.value_bytes("Größe,age,deferment,year\n1,65,0,2010\n".encode("cp1252"))
        self.assertEqual(status, 1)
        self.assertIn("line 1, the header: character 3: byte F6 is not utf-8; if", wrong)
        self.assertEqual(self.files(), ["members.csv"])

    def test_encodings_that_do_not_fit(self) -> None:
        for members, encoding, wanted in ((MEMBERS.encode(), "none-such", "is not known"),
                                          (MEMBERS.encode(), "\udcff", "is not known"),
                                          (MEMBERS.encode(), "hex", "is not an encoding of text files"),
                                          (MEMBERS.encode("utf-32"), "utf-16", "begins with the mark of utf-32"),
                                          (MEMBERS.encode("utf-8-sig"), "cp1252", "begins with the mark of utf-8"),
                                          (MEMBERS.encode("utf-16"), "cp1252", "begins with the mark of utf-16"),
                                          (MEMBERS.encode("utf-16")[:-1], "utf-16", "cannot be read")):
            status, _, wrong = self.value_bytes(members, "--encoding", encoding)
            self.assertEqual(status, 1, encoding)
            self.assertIn(wanted, wrong)
            self.assertNotIn("unforeseen", wrong)

    def test_every_encoding_of_python(self) -> None:
        """A file in it is valued, or the command says that none is written in it."""
        members = "name,age,deferment,year\nx,65,0,2010\n"
        files = 0
        for encoding in sorted({*encodings.aliases.aliases.values(), "idna", "punycode", "unicode_escape", "undefined"}):
            is_of_files = True
            try:
                content = members.encode(encoding)
            except (LookupError, UnicodeError):
                content, is_of_files = members.encode(), False
            status, said, wrong = self.value_bytes(content, "--encoding", encoding)
            files += status == 0
            self.assertRegex(said + wrong, "1 row, 1 valued" if status == 0 else "is not known|is not an encoding of text files")
            self.assertTrue(is_of_files or status == 1, encoding)
        self.assertGreater(files, 80)

    def test_a_message_that_the_encoding_lacks(self) -> None:
        """Refusal 9 has a sign that not every encoding has."""
        source = Source(io.BytesIO(b"age,deferment,year\n"), "ascii")
        carried = Carried(source, Rows(source, ("age", "deferment", "year")), ("message",))
        self.assertEqual(source.encoded(carried.added(["beyond ±5"])), b",beyond ?5\n")


class Forms(Command):
    def rows_of(self, members: str, separator: str = ",") -> list[list[str]]:
        status, _, wrong = self.value(members)
        self.assertEqual(status, 0, wrong)
        with open(self.folder / "values.csv", encoding="utf-8", newline="") as file:
            return list(csv.reader(file, delimiter=separator))

    def test_separators(self) -> None:
        for separator in (",", ";", "\t"):
            rows = self.rows_of(separator.join(("age", "deferment", "year")) + "\n" + separator.join(("148", "3", "2010")) + "\n",
                                separator)
            self.assertEqual(len(rows[0]), 11)
            self.assertEqual(rows[1][-4:], ["8", "148", "3", "age + deferment above 150 (age 148, deferment 3)"])

    def test_an_announced_separator(self) -> None:
        for announced, separator in (("sep=;", ";"), ("SEP=|", "|"), ('"sep=,"', ","), ("sep=\t", "\t")):
            rows = [announced, separator.join(("age", "deferment", "year")), separator.join(("65", "0", "2010")), ""]
            self.assertEqual(self.value("\r\n".join(rows))[0], 0, announced)
            lines = (self.folder / "values.csv").read_bytes().decode().split("\r\n")
            self.assertEqual(lines[0], announced)
            self.assertEqual(lines[2], separator.join(("65", "0", "2010", "19.302119086", "21.867934091", "14.462554177",
                                                       "15.698927802", "", "", "", "")))

    def test_line_ends(self) -> None:
        for end in ("\n", "\r\n", "\r"):
            for last in (end, ""):
                self.assertEqual(self.value(f"age,deferment,year{end}65,0,2010{end}70,0,2010{last}")[0], 0)
                lines = (self.folder / "values.csv").read_bytes().decode().split(end)
                self.assertEqual([line.count(",") for line in lines], [10, 10, 10, 0])
        # A line that ends otherwise than the others is told by its place; the others are valued.
        rows = self.rows_of("age,deferment,year\n65,0,2010\r70,0,2010\n80,0,2010\n")
        self.assertEqual([row[7] for row in rows[1:]], ["12", ""])
        self.assertEqual(rows[1][0], "65,0,2010\r70,0,2010")
        self.assertIn("character 10: the line ends otherwise than the others do", rows[1][-1])

    def test_a_last_line_without_an_end(self) -> None:
        """It is valued as it stands; the run says so, and the record, wherever the blocks end."""
        rows = "x,65,0,2010\n" * 10_923  # longer than what is read at once
        for body in (rows, rows[-12:], rows[-12:] + '"two\nlines",65,0,2010\n', rows[-12:] + "x,65,0,2o10\n", ""):
            for end, is_ended in (("\n", True), ("\r\n", True), ("\r", True), ("", False), ("\n,,,", False)):
                members = ("name,age,deferment,year\n" + body).removesuffix("\n") + end
                for line_end in ("\n",) if "\r" in end or '"' in body else ("\n", "\r\n", "\r"):
                    status, _, wrong = self.value(members.replace("\n", line_end))
                    self.assertEqual(status, 0)
                    self.assertEqual("members.csv has no line end, and is taken as it stands" in wrong, not is_ended, (end, wrong))
                    record = json.loads((self.folder / "values.csv.json").read_text())
                    self.assertEqual((record["last_line_ended"], record["rows"]),
                                     (is_ended, body.count("x,") + body.count("two")))
        _, _, wrong = self.run_process("value", "-", SAMPLE / "basis.bin", "-", given=b"age,deferment,year\n65,0,2010")
        self.assertIn(b"\nparvusek: the last line of standard input has no line end, and", wrong)

    def test_blank_lines_are_passed_over_and_counted(self) -> None:
        status, said, _ = self.value('\n,,\nage,deferment,year\n\n65,0,2010\n   \n,,\n"","",""\n;\n70,0,2010\n\n\n')
        self.assertEqual(status, 0)
        self.assertIn("3 rows, 2 valued, 1 refused: 1 by 12; 8 blank lines passed over\n", said)
        self.assertEqual([row["refusal"] for row in self.values()], ["", "12", ""])
        self.assertEqual(self.values()[1]["first"], "9")

    def test_cells_beyond_the_header_are_carried_over(self) -> None:
        rows = self.rows_of('age,deferment,year\n65,0,2010,x,"y,z"\n65,0\n"65",0,2010,w\n')
        self.assertEqual([len(row) for row in rows], [11, 13, 11, 12])
        self.assertEqual(rows[1][:3] + rows[1][7:10] + rows[1][11:], ["65", "0", "2010", "12", "2", "0", "x", "y,z"])
        self.assertIn("5 cells where the header has 3", rows[1][10])
        self.assertEqual(rows[2][:4], ["65", "0", "", ""])
        self.assertEqual(rows[3][11:], ["w"])

    def test_rows_are_carried_over_as_they_stand(self) -> None:
        for row in ('65,0,2010,"Smith, A"', '"65","0","2010","a ""b"" c"', "65, 0 ,2010,5\" pipe", ' 65 ,0,2010,""'):
            self.assertEqual(self.value(f"age,deferment,year,name\n{row}\n")[0], 0)
            written = (self.folder / "values.csv").read_text(encoding="utf-8").splitlines()[1]
            self.assertEqual(written, f"{row},19.302119086,21.867934091,14.462554177,15.698927802,,,,")

    def test_a_cell_over_several_lines(self) -> None:
        members = 'age,deferment,year,name\r\n65,0,2010,"one\r\ntwo\nthree"\r\n70,0,2010,x\r\nx,0,2010,y\r\n'
        status, said, _ = self.value(members)
        self.assertEqual(status, 0)
        self.assertIn("3 rows, 2 valued, 1 refused: 1 by 12; 1 row over several lines\n", said)
        rows = list(csv.reader(io.StringIO((self.folder / "values.csv").read_bytes().decode(), newline="")))
        self.assertEqual([row[3] for row in rows], ["name", "one\r\ntwo\nthree", "x", "y"])
        self.assertEqual(rows[3][9], "6")  # the line in the file, not the row's number


class BadRows(Command):
    def test_a_bad_row_is_refused_alone(self) -> None:
        long = "x" * 131_073
        for row, why in (('65,0,2010,"a"b', "character 14: something follows the quote that closes a cell"),
                         (f"65,0,2010,{long}", "a cell has more than 131,072 characters"),
                         (f'65,0,2010,"{long}"', "a cell has more than 131,072 characters")):
            status, said, _ = self.value(f"age,deferment,year,name\n70,0,2010,a\n{row}\n80,0,2010,b\n")
            self.assertEqual(status, 0)
            self.assertIn("3 rows, 2 valued, 1 refused: 1 by 12\n", said)
            limit = csv.field_size_limit(10**6)
            try:
                rows = self.values()
            finally:
                csv.field_size_limit(limit)
            self.assertEqual([each["refusal"] for each in rows], ["", "12", ""])
            self.assertEqual(rows[1]["first"], "3")
            self.assertIn(why, rows[1]["message"])
            self.assertTrue(row == rows[1]["age"] or row.strip('"')[-99:] == rows[1]["name"][-99:])

    def test_a_quote_that_is_not_closed_at_the_end(self) -> None:
        status, said, _ = self.value('age,deferment,year,name\n65,0,2010,a\n65,0,2010,"b')
        self.assertEqual(status, 0)
        self.assertIn("2 rows, 1 valued, 1 refused", said)
        self.assertEqual(self.values()[1]["age"], '65,0,2010,"b')
        self.assertIn("character 11: the quote that opens a cell there is not closed", self.values()[1]["message"])

    def test_where_the_file_stops_being_a_csv(self) -> None:
        for members, place in (
                ('age,deferment,year,name\n65,0,2010,a\n65,0,2010,"b\n65,0,2010,c\n', "line 3, character 11: "),
                ('age,deferment,year,name\n65,0,2010,"b\n65,0,2010,"c"\n', "line 2, character 11: "),
                ('age,deferment,year,name\n65,0,2010,"b\n"\n"65,0,2010,c\n1\n', "line 4, character 1: "),
                ('age,deferment,year,name\n65,0,2010,"b\n' + 20_000 * "65,0,2010,c\n", "line 2, character 11: "),
                ('name,age,deferment,year\n"b\n",65,0,"2010\n1\n', "line 3, character 8: ")):
            status, said, wrong = self.value(members)
            self.assertEqual((status, said), (1, ""))
            self.assertIn(f"the members cannot be read: {place}the quote that opens a cell there is ", wrong)
            self.assertIn("from there on the file cannot be read as CSV", wrong)
            self.assertEqual(self.files(), ["members.csv"])

    def test_a_line_without_an_end(self) -> None:
        status, _, wrong = self.value_bytes(b"age,deferment,year\n65,0,2010\n" + b"x" * (1 << 25))
        self.assertEqual(status, 1)
        self.assertIn("line 3 has more than 16,777,216 characters and no end", wrong)
        status, _, wrong = self.value_bytes(b"\0" * (1 << 25))
        self.assertEqual(status, 1)
        self.assertNotIn("unforeseen", wrong)

    def test_what_is_no_csv_at_all(self) -> None:
        for content in (b"x" * 200_000 + b"\n", b'"' + b"x" * 200_000 + b'"\n', b'"' * 200_001, b"sep=,", b'sep=;\n"',
                        bytes(range(256)) * 50, (SAMPLE / "basis.bin").read_bytes(), b"\xff\xfe\x00", b"\xef\xbb\xbf", b"\n\n\n"):
            status, _, wrong = self.value_bytes(content)
            self.assertEqual(status, 1)
            self.assertTrue(wrong.startswith("parvusek: "), wrong)
            self.assertNotIn("unforeseen", wrong)


class Memory(Command):
    def test_it_does_not_grow_with_the_rows(self) -> None:
        """Measured as a ratio: a file ten times as long takes no twice the memory, whether its rows are plain or not."""
        for row in ("65,0,2010,name\n", '65,0,2010,"two\nlines"\n'):
            peaks = []
            for rows in (20_000, 200_000):
                members = self.folder / "members.csv"
                with open(members, "w", encoding="utf-8") as file:
                    file.write("age,deferment,year,name\n")
                    for _ in range(rows // 1_000):
                        file.write(row * 1_000)
                code = ("import resource, sys; from parvusek.__main__ import main; main(sys.argv[1:]); "
                        "print(resource.getrusage(resource.RUSAGE_SELF).ru_maxrss, file=sys.stderr)")
                done = subprocess.run([sys.executable, "-c", code, "value", members, SAMPLE / "basis.bin",
                                       self.folder / "values.csv"], capture_output=True, check=True)
                peaks.append(int(done.stderr))
            self.assertLess(peaks[1], 1.5 * peaks[0], row)


class Quickly(unittest.TestCase):
    """Rows taken as whole blocks are those that the csv module reads, for texts of every kind cut anywhere."""

    class Drops:
        """A source that hands out its text in drops of any length."""

        encoding = "utf-8"

        def __init__(self, text: str, draw: random.Random) -> None:
            self._text, self._draw = text, draw

        def read(self) -> str:
            length = self._draw.choice((1, 1, 2, 3, 7, 50, 1_000))
            drop, self._text = self._text[:length], self._text[length:]
            return drop

    def rows_of(self, text: str, draw: random.Random) -> Iterator[list[str]]:
        rows = Rows(self.Drops(text, draw), ("age",))  # type: ignore[arg-type]
        yield rows.header.cells or []
        for block in rows.blocks():
            plain = rows.plain(block)
            if plain is not None and draw.random() < 0.7:
                rows.took(plain[0])
                yield from plain[1]
            else:
                for row in rows.careful(block):
                    assert row.cells is not None, row
                    yield row.cells

    def test_against_the_csv_module(self) -> None:
        draw = random.Random(24)
        cells = ["", "65", " 0 ", "a b", "Smith, A", 'say "so"', "two\nlines", "é", "x;y", '"']
        for turn in range(400):
            end = draw.choice(("\n", "\r\n"))
            table = [["age", "b", "c"]] + [[draw.choice(cells) for _ in range(draw.choice((1, 3, 3, 4)))]
                                           for _ in range(draw.randrange(12))]
            if draw.random() < 0.4:
                table = [["p" if re.search('[,"\n]', cell) else cell for cell in row] for row in table]
            text = io.StringIO()
            csv.writer(text, lineterminator=end).writerows(table)
            written = text.getvalue()
            if draw.random() < 0.3:
                written = written.removesuffix(end)
            try:
                found = list(self.rows_of(written, draw))
            except NotCsv as error:
                self.fail(f"{written!r}: {error}")
            self.assertEqual([row or [""] for row in found], [row or [""] for row in table], (turn, written))
