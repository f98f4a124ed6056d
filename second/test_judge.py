"""Tests of judge.py: verdicts, printed certificates, places, exit statuses."""

import os
import random
import subprocess
import sys
import tempfile
import unittest
from contextlib import redirect_stderr, redirect_stdout
from io import StringIO

from case_grammars import ONE_A_BYTES, grammar_of
from corpus import Found, entries, found_in, table_in, text_in
from judge import certified as judge_certified
from judge import checked, run, verdict
from live_misreadings import former_triples
from named_grammars import join_lines
from places import place_of
from printed import (
    CHECKED, FORMS, MOST_BYTES, MOST_STATES, PLAIN, RUNS, Malformed, Read, bytes_needed, certificate_in,
    has_form, lines_of, read_in,
)
from program import printed
from searches import Unambiguous, needed, search
from spelling import in_another_case, respelled
from tables import MAX_STATES, Grammar, Refusal
from text import AMPLE, read_text
from text_read_inputs import EXAMPLE
from triples import certificate_of, reached, triples_of

# What bindings/README.md shows for document 01's example.
LINES = (b"certificate-form=1\nstates=6\nrules=1\nsize=11\n"
         b"0000: 15 50 21 15 08 00 00 00 00\n")
LINES_CHECKED = (b"certificate-form=2\nstates=6\nrules=1\nsize=11\n"
                 b"0000: 15 50 21 15 08 00 00 00 00 *d0\n")
PROGRAM = os.path.join(os.path.dirname(os.path.abspath(__file__)), "judge.py")


def certified():
    """The grammars of the corpus that have a certificate, with it."""
    for entry in entries():
        text = text_in(entry.name)
        found = found_in(text)
        if found is None:
            continue
        result = search(*found.table, needed(entry.states))
        if isinstance(result, Unambiguous):
            yield text, found, result.certificate


class CertificateTest(unittest.TestCase):
    def test_the_example(self):
        found = found_in(EXAMPLE)
        for form, lines in [(PLAIN, LINES), (CHECKED, LINES_CHECKED)]:
            self.assertEqual(lines_of(found, ONE_A_BYTES, form), lines)
            self.assertEqual(certificate_in(found, lines), ONE_A_BYTES)
            self.assertEqual(checked(EXAMPLE, lines), ("accepted\n", 0, None, None, None, None))
            self.assertEqual(checked(EXAMPLE[:-1], lines)[0], "refused=16\nat=3\n")

    def test_the_corpus(self):
        tried = {form: 0 for form in FORMS}
        for text, found, certificate in certified():
            for form in FORMS:
                if has_form(found.grammar.states, form):
                    self.assertEqual(checked(text, lines_of(found, certificate, form))[0], "accepted\n")
                    tried[form] += 1
        self.assertEqual(tried[PLAIN], tried[CHECKED])
        self.assertEqual(tried[RUNS], tried[CHECKED] + 1, "chemistry-300 has form 3 alone")

    def test_512_states_have_every_form_and_513_form_3(self):
        """Offsets up to ffe0 or fff0 in forms 1 and 2; form 3 has one digit more."""
        names = [b"x%d" % place for place in range(39)]
        front = b"terminals=" + b",".join(names) + b"\nnonterminals=S\n"
        front += b"".join(b"rule=S:" + (b" " + name) * 12 + b"\n" for name in names)
        text, longer = front + b"rule=S:\n", front + b"rule=S: x0\n"
        found, other = found_in(text), found_in(longer)
        certificate = search(*found.table, needed(MOST_STATES)).certificate
        self.assertEqual((found.grammar.states, len(certificate)), (512, 65536))
        self.assertEqual(other.grammar.states, 513)
        for form, last in ((PLAIN, b"\nffe0: "), (CHECKED, b"\nfff0: "), (RUNS, b"\n0fff0: ")):
            lines = lines_of(found, certificate, form)
            self.assertEqual(last in lines, form == PLAIN)
            self.assertEqual(checked(text, lines)[0], "accepted\n")
            lines = lines.replace(b"states=512", b"states=513")
            if form != RUNS:
                printed_, _, _, fault, *_ = checked(longer, lines)
                self.assertEqual((printed_, fault[:2]), ("malformed\n", (1, 18)))
                self.assertIn("form %d has at most 512 states; the grammar has 513" % form, fault.message)
        printed_, status, *_ = judge_certified(longer)
        self.assertTrue(printed_.startswith("certificate-form=3\nstates=513\n"))
        self.assertEqual((status, checked(longer, printed_.encode())[0]), (0, "accepted\n"))

    def test_the_longest_lines(self):
        """1,024 states and no byte of 0: form 3 has one line for 16 bytes."""
        found = Found(None, None, Grammar(1, 1, (), MAX_STATES), [])
        certificate = b"\xff" * bytes_needed(MAX_STATES)
        lines = lines_of(found, certificate, RUNS)
        self.assertEqual(len(lines), len(b"certificate-form=3\nstates=1024\nrules=0\nsize=2097152\n") + 59 * 16384)
        self.assertLess(len(lines) + lines.count(b"\n"), MOST_BYTES)
        self.assertIn(b"\n3fff0: ff", lines)
        self.assertEqual(certificate_in(found, lines), certificate)
        self.assertEqual(certificate_in(found, lines[:-60]).line, 4)

    def test_certificates_from_before_dead_rules_lost_their_moves(self):
        """Printed then for a grammar of the corpus, with another size than now."""
        found = found_in(text_in("useless-unreached"))
        held = reached(former_triples(found.grammar))
        self.assertEqual(len(held), 31)
        for form in FORMS:
            lines = lines_of(found, certificate_of(found.grammar.states, held), form)
            self.assertEqual(checked(text_in("useless-unreached"), lines)[0], "accepted\n")

    def test_certificates_from_before_grammars_without_a_sentence_were_refused(self):
        for name in ("row-none", "row-cycle", "no-language", "no-language-both", "no-start-rule"):
            self.assertIsNone(found_in(text_in(name)))
            grammar = grammar_of(table_in(name))
            found = Found(None, None, grammar, [])
            for triples in (triples_of(grammar), former_triples(grammar)):
                for form in FORMS:
                    lines = lines_of(found, certificate_of(grammar.states, reached(triples)), form)
                    self.assertEqual(checked(text_in(name), lines)[0], "refused=19\nat=0\n")

    def test_lenient(self):
        found = found_in(EXAMPLE)
        for lines in LINES, LINES_CHECKED:
            head, part = lines.split(b"0000")
            for other in [lines.replace(b"\n", b"\r\n"), lines + b"\n\r\n", lines[:-1], head + b"0000" + part.upper()]:
                self.assertEqual(certificate_in(found, other), ONE_A_BYTES)

    def test_refused(self):
        for bytes_, size, answer in [(bytes(9), 0, "refused=11\nat=0\n"),
                                     (b"\xff" * 9, 72, "refused=12\nat=43\n"),
                                     (b"\x01" + bytes(8), 1, "refused=13\nat=0\n")]:
            lines = LINES.replace(b"11", b"%d" % size).replace(
                ONE_A_BYTES.hex(" ").encode(), bytes_.hex(" ").encode())
            self.assertEqual(checked(EXAMPLE, lines)[0], answer)

    def test_malformed(self):
        for old, new, line, column in [
                (b"form=1", b"form=9", 1, 18), (b"states=6", b"states=06", 2, 8), (b"=1\nsize", b"=2\nsize", 3, 7),
                (b"11", b"12", 4, 6), (b"15 50", b"1550", 5, 9), (b"15 50", b"1g 50", 5, 8), (b"0000", b"0001", 5, 1),
                (b"08", b"0\xe9", 5, 20), (b"00\n", b"00 00\n", 5, 33), (b"00\n", b"00\n0000:\n", 6, 6),
                (b"0000:", b"00\xb20:", 5, 1), (b"=11", b"=\xb2", 4, 6), (b"=11", b"=" + b"1" * 9999, 4, 6), (LINES, b"", 1, 1)]:
            lines = LINES.replace(old, new, 1)
            self.assertNotEqual(lines, LINES)
            printed_, _, _, fault, *_ = checked(EXAMPLE, lines)
            self.assertEqual((printed_, fault[:2]), ("malformed\n", (line, column)), lines)
        wrong = certificate_in(found_in(EXAMPLE), LINES_CHECKED.replace(b"form=2", b"form=1"))
        self.assertEqual(wrong[:2], (1, 18))

    def test_slips_are_told_by_line(self):
        rng = random.Random(1)
        cases = [case for case in certified() if has_form(case[1].grammar.states, CHECKED)]
        for _ in range(300):
            _, found, certificate = rng.choice(cases)
            lines = lines_of(found, certificate, CHECKED).split(b"\n")[:-1]
            slip = rng.randrange(4, len(lines))
            line = bytearray(lines[slip])
            places = [place for place, byte in enumerate(line) if chr(byte) in "0123456789abcdef"]
            place = rng.randrange(len(places) - 1)
            if rng.random() < 0.5:
                line[places[place]] = rng.choice([byte for byte in b"0123456789abcdef" if byte != line[places[place]]])
            else:
                line[places[place]], line[places[place + 1]] = line[places[place + 1]], line[places[place]]
            if bytes(line) != lines[slip]:
                lines[slip] = bytes(line)
                fault = certificate_in(found, b"\n".join(lines))
                self.assertIsInstance(fault, Malformed)
                self.assertEqual(fault.line, slip + 1)


class PlaceTest(unittest.TestCase):
    def place(self, text):
        refusal = read_text(text, AMPLE)
        self.assertIsInstance(refusal, Refusal)
        return place_of(text, refusal)

    def test_places(self):
        lists = b"terminals=a,b\nnonterminals=S\n"
        for text, line, column in [
                (b"", 1, 1), (b"terminals=a\n", 2, 1), (b"\xef\xbb\xbf" + lists, 1, 1), (b"# x\n" + lists, 1, 1),
                (lists.replace(b"\n", b"\r\n"), 1, 14), (b"terminals=a, b\n", 1, 13), (b"terminals=a_b\n", 1, 12),
                (b"terminals=a,\n", 1, 13), (b"terminals=" + b"x" * 16 + b"\n", 1, 26), (b"nonterminals=S\n", 1, 1),
                (lists + b"rule=S: a", 3, 10), (lists + b"rule=S: a \n", 3, 11), (lists + b"rule=S:  a\n", 3, 9),
                (lists + b"rule=S -> a\n", 3, 7), (lists + b"rule=S:\ta\n", 3, 8), (lists + b"\n", 3, 1),
                (lists + b"rule=S: a | b\n", 3, 11), (lists + b"rule=S: c\n", 3, 9), (lists + b"rule=a: a\n", 3, 6),
                (b"terminals=a,b,a\n", 1, 15), (b"terminals=a\nnonterminals=S,a\n", 2, 16), (b"terminals=\nnonterminals=\n", 2, 14),
                (lists + b"rule=S:" + b" a" * 13 + b"\n", 3, 6), (lists + b"rule=S: a\nrule=S:\nrule=S: a\n", 5, 6),
                (b"terminals=a,b,A\n", 1, 15), (b"terminals=a\nnonterminals=S,A\n", 2, 16), (lists + b"rule=s: A C\n", 3, 11),
                (lists + b"rule=A: a\n", 3, 6), (lists + b"Rule=S: a\n", 3, 1), (lists + b"rule=s: A\nrule=S: a\n", 4, 6),
                (b"x" * 262145, 1, 1), (lists, 2, 14), (lists + b"rule=S: a S\n", 2, 14)]:
            self.assertEqual(self.place(text)[:2], (line, column), text[:60])

    def test_names_in_messages(self):
        """Declared names as they are declared, others as they stand there: document 02, [9]."""
        lists = b"terminals=Take,b\nnonterminals=S\n"
        for text, message in [
                (lists + b"rule=TAKE: b\n", "'Take' is a terminal; only a nonterminal has rules"),
                (lists + b"rule=s: take Give\n", "'Give' is not declared"),
                (lists + b"rule=s: S\n", "'S' has no finite tree, so there is no sentence"),
                (b"terminals=Take,b,take\n", "'take' is declared twice, before as 'Take'"),
                (b"terminals=b\nnonterminals=S,B\n", "'B' is declared twice, before as 'b'"),
                (b"terminals=b,b\n", "'b' is declared twice")]:
            self.assertEqual(self.place(text).message, message)

    def test_every_refusal_has_its_line(self):
        rng = random.Random(1)
        for _ in range(2000):
            text = bytearray(EXAMPLE + b"rule=S: S a\n")
            for _ in range(rng.randrange(1, 4)):
                text[rng.randrange(len(text))] = rng.choice(b"\n\r\t =:,|#_-aSAs\xc3")
            refusal = read_text(bytes(text), AMPLE)
            if isinstance(refusal, Refusal):
                place = place_of(bytes(text), refusal)
                if refusal.cause not in (6, 7, 8, 19):
                    self.assertEqual(place.line, refusal.position)


BIOLOGY = (b"terminals=b,c,e,d\nnonterminals=S,W\nrule=S: b W c\nrule=S: b e d\nrule=S: W d\nrule=W: e\n")


class CallersTest(unittest.TestCase):
    """Document 02, [11]: the biology group's grammar."""

    LINES = "states=19\ncallers=%d\nverdict=unambiguous\nreached=58\n"

    def test_verdicts(self):
        self.assertEqual(verdict(BIOLOGY)[:2], (self.LINES % 1, 0))
        self.assertEqual(verdict(BIOLOGY, 2)[:2], (self.LINES % 2, 0))
        self.assertEqual(verdict(BIOLOGY, 0)[:2], (printed(BIOLOGY).decode(), 3))
        self.assertEqual(verdict(BIOLOGY, 3)[:2], ("refused=21\nat=0\n", 4))
        self.assertEqual(verdict(text_in("chemistry-300"), 1)[:2], ("refused=8\nat=0\n", 4))
        self.assertEqual(verdict(text_in("row-none"), 3)[:2], ("refused=19\nat=0\n", 4))
        self.assertEqual(verdict(EXAMPLE)[0], printed(EXAMPLE).decode())

    def test_certificates(self):
        lines = judge_certified(BIOLOGY).printed
        self.assertEqual(lines.splitlines()[:5],
                         ["certificate-form=2", "states=19", "callers=1", "rules=4", "size=58"])
        self.assertEqual(checked(BIOLOGY, lines.encode())[0], "accepted\n")
        self.assertEqual(checked(BIOLOGY, lines.replace("callers=1", "callers=2").encode())[0], "accepted\n")
        self.assertEqual(checked(BIOLOGY, lines.replace(" 15 11 01 00 40 45 44 10 00 50", " 15 11 01 00 40 45 44 10 00 51")
                                 .encode())[0], "malformed\n")
        for wrong in ("callers=0", "callers=3", "callers=", "callers=01", "callers=1 "):
            self.assertEqual(checked(BIOLOGY, lines.replace("callers=1", wrong).encode()).certificate_fault.line, 3)
        for other in ("", "Callers=1\n"):
            self.assertEqual(checked(BIOLOGY, lines.replace("callers=1\n", other).encode()).certificate_fault.line, 2)
        for form in FORMS:
            found = found_in(BIOLOGY)
            certificate = certificate_in(found, lines.encode())
            self.assertEqual(read_in(found, lines_of(found, certificate, form, 2)), Read(2, certificate))
        self.assertNotIn("callers", judge_certified(EXAMPLE).printed)


class RunTest(unittest.TestCase):
    def run_with(self, *files, words=()):
        """Exit status, output and messages for files with these contents."""
        with tempfile.TemporaryDirectory() as folder:
            paths = [os.path.join(folder, str(place)) for place in range(len(files))]
            for path, data in zip(paths, files):
                with open(path, "wb") as file:
                    file.write(data)
            with redirect_stdout(StringIO()) as out, redirect_stderr(StringIO()) as err:
                status = run(list(words) + paths)
        return status, out.getvalue(), err.getvalue().replace(folder + os.sep, "")

    def test_verdicts(self):
        self.assertEqual(self.run_with(EXAMPLE), (0, printed(EXAMPLE).decode(), ""))
        cycle = text_in("row-cycle-a")
        note = "0: potential with each number of callers remembered that fits: 0, 1, 2\n"
        self.assertEqual(self.run_with(cycle), (3, printed(cycle).decode(), note))
        endless = text_in("row-cycle")
        self.assertEqual(self.run_with(endless), (
            4, "refused=19\nat=0\n", "0:2:14: error: 'S' has no finite tree, so there is no sentence\n"))
        fault = "0:1:1: error: the text ends here; line 1 begins with 'terminals='\n"
        self.assertEqual(self.run_with(b""), (4, "refused=16\nat=1\n", fault))
        self.assertEqual(self.run_with(b"", words=["--quiet"]), (4, "refused=16\nat=1\n", ""))
        self.assertTrue(verdict(text_in("robot-49")).printed.startswith("states=49\n"))
        large = verdict(text_in("robot-large-lab")).printed.split("\n")
        self.assertEqual(large[:2], ["states=255", "verdict=potential"])
        self.assertEqual([line.split(" ")[:2] for line in large[2:4]],
                         [["left=(0", "(2"], ["right=(0", "(2"]])
        self.assertEqual(large[4:], [""])

    def test_case(self):
        """All that is printed is as it is for the text with each use in its declared spelling."""
        rng = random.Random(2)
        for name in ("row-a", "row-cycle-a", "row-odd-a", "row-nested", "expr-minus", "robot-swap", "else-dangling",
                     "robot-channels", "pairs-of-c", "no-start-rule"):
            text = text_in(name)
            other = join_lines(respelled(rng, text.split(b"\n")[:-1], in_another_case))
            self.assertNotEqual(other, text)
            for words in ([], ["--certificate"]):
                told = self.run_with(text, words=words)
                self.assertEqual(self.run_with(other, words=words), told)
                if words and told[0] == 0:
                    self.assertEqual(self.run_with(other, told[1].encode()), (0, "accepted\n", ""))
        twice = EXAMPLE.replace(b"s=S", b"s=S,A")
        self.assertEqual(self.run_with(twice), (
            4, "refused=18\nat=2\n", "0:2:16: error: 'A' is declared twice, before as 'a'\n"))

    def test_certificates(self):
        self.assertEqual(self.run_with(EXAMPLE, LINES_CHECKED), (0, "accepted\n", ""))
        self.assertEqual(self.run_with(EXAMPLE, b""), (1, "malformed\n", "1:1:1: error: 'certificate-form=' is expected\n"))
        self.assertEqual(self.run_with(b"", b"")[:2], (4, "refused=16\nat=1\n"))
        self.assertEqual(self.run_with(EXAMPLE, words=["--certificate"]), (0, LINES_CHECKED.decode(), ""))
        marked = b"\xef\xbb\xbf" + LINES_CHECKED.replace(b"0000:", b"\n\n0000:")
        self.assertEqual(self.run_with(EXAMPLE, marked), (0, "accepted\n", ""))

    def test_words(self):
        self.assertEqual(self.run_with()[:2], (2, ""))
        self.assertEqual(self.run_with(words=["-", "-"])[:2], (2, ""))
        self.assertEqual(self.run_with(words=["--no-such-option"])[:2], (2, ""))
        for word in "--help", "-h", "--version":
            status, out, err = self.run_with(words=[word])
            self.assertEqual((status, err), (0, ""))
            self.assertIn("judge.py", out)

    def test_no_traceback(self):
        """Whatever is named, the program ends with a status and without a traceback."""
        with tempfile.TemporaryDirectory() as folder:
            missing = os.path.join(folder, "missing")
            for words, status in [([missing], 2), ([folder], 2), (["/dev/zero"], 4), (["\0"[:0]], 2), (["-"], 4), (["-c", "-"], 4),
                                  (["-c", "-", "-"], 2),
                                  (["-", missing], 2), ([folder, "-"], 2), (["--"], 2), (["a", "b", "c"], 2)]:
                ran = subprocess.run([sys.executable, PROGRAM] + words, input=b"\xff\x00", capture_output=True)
                self.assertEqual(ran.returncode, status, words)
                self.assertNotIn(b"Traceback", ran.stderr)


if __name__ == "__main__":
    unittest.main()
