"""Tests of the corpus, its cases, the texts for the program, and the comparisons."""

import hashlib
import os
import random
import tempfile
import unittest
from contextlib import redirect_stderr, redirect_stdout
from io import StringIO

import corpus_texts
from case_files import digest
from case_grammars import ROWS, good, grammar_of
from corpus import (
    Entry, counts, entries, entry_of, faults, faults_of, names_in, table_in, text_in,
)
from corpus_cases import FEWEST, KIND, REASONS, compare_program, difference, reasons_of, run
from corpus_texts import Sample, padded, padding, samples
from dead_rules import kind_of
from file_tests import without_sentences
from named_grammars import join_lines, text_of
from program import printed
from robot_grammars import CHANGES, grow, grown, named, states_of, table_of
from search_cases import Case
from searches import needed
from spelling import in_another_case, respelled
from spelling_reasons import as_declared, declared_in
from tables import MAX_STATES, START
from test_tables import STATES, WITHOUT
from text import AMPLE, read_lines, read_text, write_text
from text_read_inputs import EXAMPLE

# SHA-256 of the file of cases, and of the program's texts, each after its length.
DIGEST = "18a17ee03eebbf39a109b582c0d03c8f60557d74ae5d88ef0205ee6434685db5"
TEXTS = "efaf84d782cb4eeb4b332b5ecece80f3c1d07d989302c07322323af3cbe4860c"

WITHOUT_LINES = b"refused=19\nat=0\n"
RIGHT = b"states=6\nverdict=unambiguous\nreached=11\n"
CYCLE = b"states=8\nverdict=potential\nleft=(0 S )0\nright=(0 (1 S )1 )0\n"


class IndexTest(unittest.TestCase):
    def entry(self, name):
        return next(entry for entry in entries() if entry.name == name)

    def faults(self, name, **changes):
        return list(faults_of(self.entry(name)._replace(**changes), text_in(name)))

    def test_the_corpus_is_as_its_index_says(self):
        with redirect_stdout(StringIO()) as out, redirect_stderr(StringIO()) as errors:
            code = run(["check"])
        self.assertEqual((code, errors.getvalue()), (0, ""))
        self.assertIn("grammars %d\n" % len(entries()), out.getvalue())

    def test_no_kind_is_without_a_truth(self):
        missing = [name for name, count in counts(entries()) if count == 0]
        self.assertEqual(missing, ["robot no-sentence"])

    def test_document_01(self):
        rows = [entry for entry in entries() if entry.kind == "row"]
        self.assertEqual([table_in(entry.name) for entry in rows], ROWS)
        self.assertEqual([entry.states for entry in rows], STATES)
        self.assertEqual([entry.size for entry in rows],
                         [None, 10, 11, 24, 30, None, None, None, None, 82])
        self.assertEqual([place for place, entry in enumerate(rows) if entry.verdict == "refused"],
                         list(WITHOUT))

    def test_rules_that_no_sentence_uses(self):
        """All of the corpus that have such rules, with their kind and size."""
        found = [(entry.name, kind_of(grammar_of(table_in(entry.name))), entry.size)
                 for entry in entries()]
        self.assertEqual([one for one in found if one[1] is not None], [
            ("row-none", "no-sentence", None), ("row-cycle", "no-sentence", None),
            ("useless-unreached", "unreachable", 29), ("useless-endless", "unproductive", 11),
            ("useless-alarm", "unproductive", 11), ("no-language", "no-sentence", None),
            ("no-language-both", "no-sentence", None), ("no-start-rule", "no-sentence", None)])
        self.assertEqual([entry.name for entry in entries() if entry.verdict == "refused"],
                         [name for name, kind, _ in found if kind == "no-sentence"])

    def test_the_program_takes_some_and_not_others(self):
        outputs = [printed(text_in(entry.name)) for entry in entries()]
        self.assertGreater(sum(output.startswith(b"states=") for output in outputs), 50)
        self.assertGreater(outputs.count(b"refused=14\nat=0\n"), 5)

    def test_wrong_columns(self):
        self.assertEqual(self.faults("row-a"), [])
        self.assertEqual(self.faults("row-a", states=7), ["states=6"])
        self.assertEqual(self.faults("row-a", size=12), ["verdict=unambiguous size=11"])
        self.assertEqual(self.faults("row-a", kind="other"),
                         ["the kind is none of row, classic, robot"])
        self.assertEqual(self.faults("row-a", verdict="potential", size=None, truth="false-alarm"),
                         ["verdict=unambiguous size=11"])
        self.assertEqual(self.faults("row-a", states_1=7), ["at m=1 states=6 verdict=unambiguous size=11"])
        self.assertEqual(self.faults("row-a", size_2=None), ["at m=2 states=6 verdict=unambiguous size=11"])
        self.assertEqual(self.faults("row-cycle-a", verdict_1="unambiguous"),
                         ["at m=1 states=12 verdict=potential size=-"])
        self.assertEqual(self.faults("row-cycle", states_1=6), ["something is said of m above 0"])
        self.assertEqual(self.faults("chemistry-300", states_1=2963), ["at m=1 states=- verdict=- size=-"])
        self.assertEqual(self.faults("row-a", truth="ambiguous"),
                         ["truth and verdict do not fit", "a sentence is given, or missing"])
        self.assertEqual(self.faults("palin-even", sentence="a a"),
                         ["a sentence is given, or missing"])

    def test_wrong_columns_without_a_sentence(self):
        self.assertEqual(self.faults("row-cycle"), [])
        self.assertEqual(self.faults("row-cycle", states=7), ["states=6"])
        for change in ({"size": 1}, {"truth": "unambiguous"}, {"sentence": "(empty)"}):
            self.assertEqual(self.faults("row-cycle", **change),
                             ["size, truth and sentence do not fit"])
        self.assertEqual(self.faults("row-cycle", verdict="unambiguous"), ["the text is refused"])
        self.assertEqual(self.faults("row-a", verdict="refused"),
                         ["the text is not refused for lack of a sentence"])

    def test_wrong_sentences(self):
        wrong = ["the sentence has no two trees"]
        self.assertEqual(self.faults("list-both", sentence="x comma x comma x comma x"), [])
        for sentence in ("x comma x", "x comma", "(empty)", "L comma x comma x", "y"):
            self.assertEqual(self.faults("list-both", sentence=sentence), wrong)

    def test_sentences_in_another_case(self):
        self.assertEqual(self.faults("list-both", sentence="X comma x Comma X"), [])
        self.assertEqual(self.faults("list-both", sentence="l comma x comma x"),
                         ["the sentence has no two trees"])

    def test_names_of_the_corpus(self):
        """No two names of a grammar differ in case alone, and rules use them as declared."""
        for entry in entries():
            text = text_in(entry.name)
            names = declared_in(text)
            self.assertEqual(len({name.lower() for name in names}), len(names), entry.name)
            self.assertEqual(as_declared(text), text, entry.name)

    def test_the_corpus_in_another_case(self):
        """Every use respelled: the same table, and the text as declared when it is written."""
        rng = random.Random(13)
        for entry in entries():
            text = text_in(entry.name)
            other = join_lines(respelled(rng, text.split(b"\n")[:-1], in_another_case))
            found = read_lines(other)
            self.assertEqual(found, read_lines(text))
            if entry.verdict != "refused":
                self.assertEqual(text, write_text(
                    found.terminals, found.nonterminals, found.table, other, found.starts,
                    found.lengths, len(text)))
                if entry.states <= 48:
                    self.assertEqual(printed(other), printed(text))

    def test_an_ambiguous_grammar_is_no_false_alarm(self):
        found = self.faults("expr-minus", truth="false-alarm", sentence="-")
        self.assertNotEqual(found, [])
        self.assertTrue(found[0].startswith("a sentence has not one tree: "))

    def test_wrong_texts(self):
        entry = self.entry("row-a")
        self.assertEqual(list(faults_of(entry, EXAMPLE)), [])
        self.assertEqual(list(faults_of(entry, EXAMPLE[:-1])), ["the text is refused"])

    def test_lines(self):
        line = ("x\trobot\there\t6\tunambiguous\t11\tunambiguous\t-\tone tree"
                "\t6\tpotential\t-\t-\t-\t-")
        self.assertEqual(entry_of(line), Entry(
            "x", "robot", "here", 6, "unambiguous", 11, "unambiguous", "-", "one tree",
            6, "potential", None, None, "-", None))
        for wrong in (line + "\tmore", line.replace("\there", ""), line.replace("11", "")):
            with self.assertRaises(ValueError):
                entry_of(wrong)

    def test_files_and_index(self):
        with tempfile.TemporaryDirectory() as folder:
            for name in ("row-a", "row-empty"):
                with open(os.path.join(folder, name + ".grammar"), "wb") as file:
                    file.write(text_in(name))
            lines = ["\t".join(Entry._fields),
                     "row-a\trow\there\t6\tunambiguous\t11\tunambiguous\t-\tone tree"
                     + "\t6\tunambiguous\t11" * 2]
            with open(os.path.join(folder, "INDEX.tsv"), "w") as file:
                file.write("\n".join(lines) + "\n")
            self.assertEqual(names_in(folder), ["row-a", "row-empty"])
            self.assertEqual(list(faults(folder)),
                             ["the index has not each file once: row-empty"])
            os.remove(os.path.join(folder, "row-empty.grammar"))
            self.assertEqual(list(faults(folder)), [])


class ChemistryTest(unittest.TestCase):
    """Document 02, [8]: "The chemistry set has 300 reagents and each is a terminal."."""

    def reagents(self, name):
        """The names that `reagent` leads to, those of solvents too, in a grammar of the corpus."""
        rules = text_in(name).decode().split("\n")[2:-1]
        words = [rule.partition(": ")[::2] for rule in rules]
        return [right for left, right in words
                if left in ("rule=reagent", "rule=solvent") and right != "solvent"]

    def test_300_reagents(self):
        found = self.reagents("chemistry-300")
        self.assertEqual((len(found), len(set(map(str.lower, found)))), (300, 300))
        self.assertEqual(table_in("chemistry-300")[:2], (326, 9))

    def test_the_slip_is_one_rule(self):
        good, slip = (text_in(name).split(b"\n") for name in ("chemistry-300", "chemistry-300-slip"))
        slip.remove(b"rule=reagent: water")
        self.assertEqual(slip, good)
        self.assertEqual(self.reagents("chemistry-300-slip").count("water"), 2)


class CasesTest(unittest.TestCase):
    def test_the_cases_are_these_bytes(self):
        self.assertEqual(digest(KIND), DIGEST)

    def test_reasons(self):
        for name, lent, expected in [
            ("row-a", needed(6), ["unambiguous-of-the-corpus", "unambiguous-up-to-48-states",
                                  "unambiguous-exactly-enough"]),
            ("robot-large-lab", needed(256), ["potential-of-the-corpus",
                                              "potential-over-48-states", "potential-longer"]),
        ]:
            found = reasons_of(Case(*table_in(name), lent, 0))
            self.assertEqual(found, expected)
            self.assertLessEqual(set(found), set(REASONS))
        table = 2, 1, (START, 2, 2, 1)
        self.assertIn("unambiguous-grown", reasons_of(Case(*table, needed(7), 0)))
        self.assertEqual(reasons_of(Case(*table_in("row-none"), needed(4), 0)),
                         ["19-of-the-corpus"])

    def test_other_words(self):
        with redirect_stderr(StringIO()) as errors:
            self.assertEqual(run(["program", "other", "x"]), 2)
        self.assertIn("program ambig BINARY", errors.getvalue())


class GrownTest(unittest.TestCase):
    def test_texts_are_read_as_the_tables(self):
        rng = random.Random(9)
        for _ in range(60):
            grammar = grown(rng, 8)
            found = read_text(text_of(grammar), AMPLE)
            self.assertEqual((found.terminals, found.nonterminals, found.table),
                             table_of(grammar))
            self.assertEqual(found.states, states_of(grammar))

    def test_at_most_so_many_states(self):
        rng = random.Random(10)
        for most in (20, 48, MAX_STATES):
            for _ in range(20):
                self.assertLessEqual(good(table_of(grown(rng, 6, most))).states, most)

    def test_every_change_changes_something(self):
        for change in CHANGES:
            rng = random.Random(11)
            different = 0
            for _ in range(20):
                lines = grow(rng, 3, 1)
                before = named(lines)
                change(rng, lines)
                different += named(lines) != before
            self.assertGreater(different, 4, change)


class PrintedTest(unittest.TestCase):
    def test_document_01(self):
        self.assertEqual(printed(EXAMPLE), RIGHT)
        self.assertEqual(printed(text_in("row-cycle-a")), CYCLE)
        self.assertEqual(printed(EXAMPLE[:-1]), b"refused=16\nat=3\n")
        self.assertEqual(printed(b""), b"refused=16\nat=1\n")

    def test_without_a_sentence(self):
        for name in ("row-none", "row-cycle", "no-start-rule", "no-language", "no-language-both"):
            self.assertEqual(printed(text_in(name)), WITHOUT_LINES)

    def test_19_before_too_many_states_and_after_too_many_bytes(self):
        lines = text_in("robot-49").split(b"\n")[:-1]
        large = join_lines(corpus_texts.no_sentence(random.Random(1), lines))
        self.assertEqual(printed(large), WITHOUT_LINES)
        self.assertEqual(printed(padded(text_in("no-language"), 3500)), WITHOUT_LINES)
        self.assertEqual(printed(text_in("row-none") + b"rule=S: S\n" * 500),
                         b"refused=14\nat=0\n")

    def test_rules_that_no_sentence_uses(self):
        course = b"terminals=a\nnonterminals=S,W\nrule=S: a\nrule=S: W\nrule=W: W\n"
        self.assertEqual(printed(course), b"states=10\nverdict=unambiguous\nreached=11\n")

    def test_too_many_states(self):
        self.assertTrue(printed(text_in("robot-48")).startswith(b"states=48\n"))
        large = text_in("robot-49")
        self.assertEqual(printed(large), b"refused=14\nat=0\n")
        self.assertEqual(printed(large + b"rule=step: wash tips\n")[:11], b"refused=6\na")
        self.assertEqual(printed(large + b"rule=step: other\n"), b"refused=17\nat=21\n")

    def test_too_many_bytes(self):
        self.assertTrue(printed(text_in("robot-4096-bytes")).startswith(b"states=48\n"))
        for text in (text_in("robot-4097-bytes"), b"x" * 4097, b"\n" * 262145):
            self.assertEqual(printed(text), b"refused=14\nat=0\n")
        self.assertEqual(printed(b"x" * 4096), b"refused=16\nat=1\n")


class TextsTest(unittest.TestCase):
    def test_the_texts_are_these_bytes(self):
        sha = hashlib.sha256()
        for sample in samples():
            sha.update(b"%d:" % len(sample.text) + sample.text)
        self.assertEqual(sha.hexdigest(), TEXTS)

    def test_padding(self):
        for size in range(8, 100):
            names = padding(size)
            self.assertEqual(sum(len(name) + 1 for name in names), size)
            self.assertEqual(len(set(names)), len(names))
        for size in (3500, 4096):
            self.assertEqual(len(padded(EXAMPLE, size)), size)
            self.assertEqual(printed(padded(EXAMPLE, size)), RIGHT)

    def test_long_readings(self):
        rng = random.Random(12)
        outputs = [printed(text_of(corpus_texts.counting(rng))) for _ in range(20)]
        self.assertTrue(all(b"\nverdict=potential\nleft=" in output for output in outputs))
        self.assertGreater(max(map(len, outputs)), 4000)

    def test_reasons(self):
        for text, expected in [
            (EXAMPLE, ["unambiguous"]),
            (text_in("row-cycle-a"), ["potential", "readings-with-a-nonterminal",
                                      "readings-of-unequal-length", "readings-with-capitals"]),
            (text_in("row-cycle"), ["refused-19"]),
            (text_in("row-odd-a"), ["potential", "readings-with-a-terminal"]),
            (text_in("robot-48"), ["unambiguous", "of-48-states"]),
            (text_in("robot-49"), ["refused-14-states", "of-49-states"]),
            (b"x" * 4097, ["refused-14-bytes", "refused-14-bytes-and-otherwise-at-fault",
                           "of-4097-bytes"]),
            (text_in("robot-49") + b"rule=step: other\n",
             ["refused-for-another-cause-with-too-many-states", "refused-17"]),
        ]:
            found = corpus_texts.reasons_of(text, printed(text))
            self.assertEqual(without_sentences(found), sorted(expected))
            self.assertLessEqual(set(found), set(corpus_texts.REASONS))


class ProgramTest(unittest.TestCase):
    """Scripts in the program's place; each reads its input and prints something."""

    def setUp(self):
        folder = tempfile.TemporaryDirectory()
        self.addCleanup(folder.cleanup)
        self.path = os.path.join(folder.name, "ambig")

    def script(self, last):
        with open(self.path, "w") as file:
            file.write("#!/bin/sh\ncat >/dev/null\n%s\n" % last)
        os.chmod(self.path, 0o755)

    def differs(self, text=EXAMPLE):
        return difference(self.path, Sample("corpus", text), printed(text)) is not None

    def test_the_right_output(self):
        self.script("printf 'states=6\\nverdict=unambiguous\\nreached=11\\n'")
        self.assertFalse(self.differs())
        self.assertTrue(self.differs(EXAMPLE[:-1]))

    def test_wrong_outputs(self):
        for output in ("", "states=6\\nverdict=unambiguous\\nreached=12\\n",
                       "states=6\\nverdict=unambiguous\\nreached=11",
                       "states=6\\nverdict=unambiguous\\nreached=11\\n\\n",
                       "states=6\\nverdict=potential\\nleft=(0 a )0\\nright=(0 (1 a )1 )0\\n"):
            self.script("printf '%s'" % output)
            self.assertTrue(self.differs())

    def test_readings(self):
        text = text_in("row-cycle-a")
        right = CYCLE.decode("ascii").replace("\n", "\\n")
        self.script("printf '%s'" % right)
        self.assertFalse(self.differs(text))
        for old, new in [("left=(0 S )0\\nright=(0 (1 S )1 )0\\n", ""), ("right=(0 (1 S )1 )0\\n", ""),
                         ("(1", "(01"), ("left=", "left= "), (")0\\n", ")0 \\n"), (" S", "  S"),
                         ("left=(0 S )0\\nright=(0 (1 S )1 )0", "left=(0 (1 S )1 )0\\nright=(0 S )0"),
                         ("S )1 )0\\n", "S )1 )0")]:
            self.assertIn(old, right)
            self.script("printf '%s'" % right.replace(old, new, 1))
            self.assertTrue(self.differs(text))

    def test_the_status_is_not_compared_but_a_signal_is_wrong(self):
        right = "printf 'states=6\\nverdict=unambiguous\\nreached=11\\n'; "
        self.script(right + "exit 3")
        self.assertFalse(self.differs())
        self.script(right + "kill -9 $$")
        self.assertTrue(self.differs())

    def test_an_input_that_is_not_read_to_its_end(self):
        self.script("")
        with open(self.path, "w") as file:
            file.write("#!/bin/sh\nprintf 'refused=14\\nat=0\\n'\n")
        self.assertFalse(self.differs(b"\n" * 200000))

    def test_counts_and_verdict(self):
        self.script("printf 'states=6\\nverdict=unambiguous\\nreached=11\\n'")
        texts = [Sample("corpus", EXAMPLE)] * FEWEST + [Sample("cut", EXAMPLE[:-1])]
        with redirect_stdout(StringIO()) as out, redirect_stderr(StringIO()) as errors:
            code = compare_program(self.path, texts)
        self.assertEqual(code, 1)
        self.assertIn("corpus %d\n" % FEWEST, out.getvalue())
        self.assertIn("\nunambiguous %d\n" % FEWEST, out.getvalue())
        self.assertTrue(out.getvalue().endswith("texts 6 different 1\n"))
        self.assertIn("fewer than 5 texts: potential\n", errors.getvalue())
        self.assertNotIn("fewer than 5 texts: unambiguous\n", errors.getvalue())
        self.assertIn("expected b'refused=16\\nat=3\\n'", errors.getvalue())


if __name__ == "__main__":
    unittest.main()
