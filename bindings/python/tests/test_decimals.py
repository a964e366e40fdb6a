"""Decimal notation is exact both ways, and nothing but a decimal number is read."""

import unittest

from parvusek import UNIT, decimal, units
from parvusek.decimals import rounded_units


class Decimals(unittest.TestCase):
    def test_there_and_back(self) -> None:
        for number in (0, 1, -1, UNIT, -UNIT, UNIT - 1, 123_456_789, -200_000_000, 2**63):
            self.assertEqual(units(decimal(number)), number)

    def test_what_a_float_would_lose(self) -> None:
        self.assertEqual(units("0.1"), 100_000_000)
        self.assertEqual(units("0.000000003"), 3)
        self.assertEqual(units("9007199.254740993"), 9_007_199_254_740_993)

    def test_fewer_decimals(self) -> None:
        self.assertEqual(units("1"), UNIT)
        self.assertEqual(units("-0.25"), -UNIT // 4)

    def test_not_a_number(self) -> None:
        for text in ("", "-", ".", "e5", "1e", "0,5", "0.0000000001", "1e-10", "١", " 1", "1\n", "nan", "inf", "1_0", "0x1",
                     "1e99999", "1" * 500):
            with self.subTest(text=text), self.assertRaises(ValueError):
                units(text)

    def test_as_spreadsheets_write_them(self) -> None:
        for text, number in (("3E-04", 300_000), (".0003", 300_000), ("1.", UNIT), ("+1", UNIT), ("01", UNIT),
                             ("-1.5e1", -15 * UNIT), ("0.0125000000000", 12_500_000), ("1e9", UNIT * UNIT)):
            self.assertEqual(units(text), number)

    def test_rounded_as_01_rounds(self) -> None:
        """To the nearest unit, ties up, below zero as well."""
        for text, number in (("0.0000000005", 1), ("-0.0000000005", 0), ("-0.0000000015", -1), ("0.00000000049", 0),
                             ("-0.00000000051", -1), ("0.0125", 12_500_000), ("1e-300", 0), ("-1e-300", 0)):
            self.assertEqual(rounded_units(text), number, text)
