"""What the tests of the files of cases share."""

from caller_reasons import ANSWERED
from case_files import decode_all, digest
from sentence_reasons import REASONS as SENTENCE_REASONS

TABLE = 1, 1, (0x8000, 258)
TABLE_BYTES = b"\x01" + bytes(7) + b"\x01" + bytes(7) + b"\x02\0\0\0" + b"\0\x80\x02\x01"
M = 2 ** 63 + 258
M_BYTES = b"\x02\x01" + bytes(5) + b"\x80"      # of the kinds that take m

WAY = 0, 2, 18, 20, 29, 75, 73      # a witness of S→S; S→a, Q = 8


def without_sentences(names):
    """Reasons without those of sentences, and of m=0 and other m, sorted; other tests are about these."""
    return sorted(name for name in names if name not in SENTENCE_REASONS + ANSWERED[:1]
                  and not name.startswith(("of-another-m-", "of-an-m-", "of-m-0-")))


class FileTests:
    """Tests of one kind of cases, for a TestCase that has these four."""

    KIND = None
    DIGEST = None         # SHA-256 of the file of cases
    CASE = None           # some case
    BYTES = None          # its bytes

    def test_the_cases_are_these_bytes(self):
        self.assertEqual(digest(self.KIND), self.DIGEST)

    def test_layout_of_a_case(self):
        self.assertEqual(self.KIND.encode(self.CASE), self.BYTES)
        self.assertEqual(list(decode_all(self.KIND, self.BYTES * 2)), [self.CASE] * 2)

    def test_a_cut_file_is_refused(self):
        for end in range(1, len(self.BYTES)):
            with self.assertRaises(ValueError):
                list(decode_all(self.KIND, self.BYTES[:end]))
