"""Tests of what the files of cases share: numbers, tables, the verbs."""

import os
import tempfile
import unittest
from contextlib import redirect_stderr
from io import StringIO

from case_files import (
    Kind, Reader, accepted_or_refused, cases_of, decode_all, encode_number,
    encode_table, main,
)
from tables import Refusal


def kind(count, **enough):
    """Cases 0, 1, ... of which each says whether it is even."""
    return Kind(
        lambda: cases_of([lambda rng: iter(range(count)), lambda rng: iter([0, 1])]),
        encode_number, lambda reader: reader.number(), str, ["even", "odd"],
        lambda case: ["odd" if case % 2 else "even"], enough=enough)


class BytesTest(unittest.TestCase):
    def test_numbers(self):
        self.assertEqual(encode_number(258), b"\x02\x01\0\0")
        reader = Reader(b"\x02\x01\0\0" + b"\xff" * 4 + b"\x07")
        self.assertEqual(reader.numbers(2), [258, 2 ** 32 - 1])
        self.assertFalse(reader.at_end())
        self.assertEqual(reader.take(1), b"\x07")
        self.assertTrue(reader.at_end())

    def test_table(self):
        data = encode_table(2 ** 64 - 1, 258, (0x8000, 13))
        self.assertEqual(
            data, b"\xff" * 8 + b"\x02\x01" + bytes(6) + b"\x02\0\0\0" + b"\0\x80\x0d\0")
        self.assertEqual(Reader(data).table(), (2 ** 64 - 1, 258, (0x8000, 13)))

    def test_a_cut_file_is_refused(self):
        for data in (b"\x01", b"\x01\0\0\0\x02\0"):
            with self.assertRaises(ValueError):
                list(decode_all(kind(2), data))

    def test_lines(self):
        self.assertEqual(accepted_or_refused(None), "accepted")
        self.assertEqual(accepted_or_refused(Refusal(13, 7)), "refused=13 at=7")


class VerbsTest(unittest.TestCase):
    def run_verbs(self, count, **enough):
        """Exit code, what it complains of, the answers and the counts."""
        with tempfile.TemporaryDirectory() as folder:
            cases, out, counts = (os.path.join(folder, name) for name in "abc")
            errors = StringIO()
            with redirect_stderr(errors):
                self.assertEqual(main("usage", ["cases", cases], kind(count, **enough)), 0)
                code = main("usage", ["answers", cases, out, counts], kind(count, **enough))
            with open(out, "rb") as file, open(counts, "rb") as other:
                return code, errors.getvalue(), file.read(), other.read()

    def test_enough(self):
        code, errors, out, counts = self.run_verbs(40)
        self.assertEqual((code, errors), (0, ""))
        self.assertEqual(out, b"".join(b"%d\n" % case for case in range(40)))
        self.assertEqual(counts, b"even 20\nodd 20\ncases 40\n")

    def test_too_few(self):
        code, errors, _, counts = self.run_verbs(39)
        self.assertEqual((code, errors), (1, "fewer than 20 cases: odd\n"))
        self.assertEqual(counts, b"even 20\nodd 19\ncases 39\n")

    def test_more_for_one_reason(self):
        self.assertEqual(self.run_verbs(40, even=20)[:2], (0, ""))
        self.assertEqual(self.run_verbs(40, even=21)[:2], (1, "fewer than 21 cases: even\n"))
        self.assertEqual(self.run_verbs(38, odd=19)[:2], (1, "fewer than 20 cases: even\n"))

    def test_other_words(self):
        with redirect_stderr(StringIO()) as errors:
            for words in (["cases"], ["cases", "a", "b"], ["other-cases", "a"], []):
                self.assertEqual(main("usage", words, kind(1)), 2)
        self.assertEqual(errors.getvalue(), "usage\n" * 4)


if __name__ == "__main__":
    unittest.main()
