"""Judges a grammar, or a printed certificate of it, by this program alone.

It needs Python 3.8 or later and nothing else: no kit, no compiler. It is tested
against the proved library, and not proved itself.
"""

import argparse
import os
import sys
from typing import List, NamedTuple, Optional, Sequence, Union

from callers import MOST_CALLERS, TOO_MANY_CALLERS, refusal_at, states_at
from certificates import check_certificate
from corpus import Found, found_in
from explained import explained, headline, of_strings
from places import Place, place_of
from printed import CHECKED, MOST_BYTES, RUNS, Malformed, has_form, lines_of, read_in
from readings import named_of, sides, witness_lines
from searches import Potential, Unambiguous, needed, search
from tables import MAX_STATES, Refusal
from text import AMPLE, MAX_TEXT, read_text
from triples import triples_of
from two_trees import TwoTrees, two_trees

MOST = MAX_TEXT + 1       # bytes that are read of a grammar: one more than a text has
VERSION_FILE = os.path.join(os.path.dirname(os.path.dirname(os.path.abspath(__file__))), "VERSION")
STATUS = """GRAMMAR is a file of grammar text, CERTIFICATE one of the lines that
ambig-certify prints; one of them may be -, standard input. For a grammar alone
the lines of the program ambig are printed, without its limits; with a
certificate 'accepted', or 'refused=' and 'at=', or 'malformed'. Without --callers
a grammar is judged remembering 0, 1 and 2 callers in turn, as far as its states
fit, until it is unambiguous; a line 'callers=' behind that of the states says
how many it took, if any. A certificate says its own. What is wrong, and where,
and how many callers were tried in vain, goes to standard error. Exit status: 0 unambiguous or accepted, 1
ambiguous (two trees were found) or a certificate that is not accepted, 2 bad
use, or a file that cannot be read or written, 3 potential, 4 a grammar that is
refused."""
YES, NO, MISUSE, POTENTIAL, REFUSED = range(5)


class Answer(NamedTuple):
    """What is printed, the exit status, and where the fault is: in the grammar, or in the certificate; a note; where readings part."""

    printed: str
    status: int
    grammar_fault: Optional[Place] = None
    certificate_fault: Optional[Malformed] = None
    note: Optional[str] = None
    parting: Optional[Place] = None


def refused(refusal: Refusal) -> str:
    return "refused=%d\nat=%d\n" % refusal


class Judged(NamedTuple):
    """What the search finds at m, the m that were tried in vain, and two trees if they were looked for and found."""

    m: int
    result: Union[Unambiguous, Potential]
    tried: List[int]
    trees: Optional[TwoTrees] = None


def unread(text: bytes) -> Answer:
    """What is said of a text that is refused."""
    result = read_text(text, AMPLE)
    assert isinstance(result, Refusal)
    return Answer(refused(result), REFUSED, place_of(text, result))


def not_at(refusal: Refusal, found: Found, m: int) -> Answer:
    """What is said of an m that the grammar cannot be judged with."""
    why = "0, 1 or 2 callers are remembered" if refusal.cause == TOO_MANY_CALLERS else (
        "with %d callers there are %d states, and at most %d fit" % (m, states_at(found.grammar, m), MAX_STATES))
    return Answer(refused(refusal), REFUSED, Place(1, 1, why))


def judged_at(found: Found, m: int) -> Union[Unambiguous, Potential]:
    """The search at an m that no refusal stops."""
    result = search(*found.table, needed(states_at(found.grammar, m)), m)
    assert not isinstance(result, Refusal), "a text that is read has no table faults"
    return result


def judged_in_turn(found: Found, look: bool) -> Judged:
    """The first m with an unambiguous verdict; m=0 if there is none. Two trees, which are looked for first, leave none."""
    first = judged_at(found, 0)
    if not isinstance(first, Potential):
        return Judged(0, first, [])
    trees = two_trees(found.grammar) if look else None
    if trees is not None:
        return Judged(0, first, [0], trees)
    fitting = [m for m in range(MOST_CALLERS + 1) if refusal_at(found.grammar, m) is None]
    for m in fitting[1:]:
        result = judged_at(found, m)
        if not isinstance(result, Potential):
            return Judged(m, result, [])
    return Judged(0, first, fitting)


def judged(found: Found, m: Optional[int], look: bool) -> Judged:
    """The search at this m, or at each in turn, with two trees if they are to be looked for."""
    if m is None:
        return judged_in_turn(found, look)
    result = judged_at(found, m)
    return Judged(m, result, [], two_trees(found.grammar) if look and isinstance(result, Potential) else None)


def lines_at(text: bytes, found: Found, answer: Judged) -> str:
    """The lines of the program, with that of m behind the states if it is above 0."""
    m, result = answer.m, answer.result
    front = b"states=%d\n" % states_at(found.grammar, m) + (b"callers=%d\n" % m if m else b"")
    if isinstance(result, Potential):
        lines = b"verdict=potential\n" + witness_lines(named_of(text, found.text), result.witness, m)
    else:
        lines = b"verdict=unambiguous\nreached=%d\n" % result.size
    return (front + lines).decode("ascii")


def note_of(answer: Judged) -> Optional[str]:
    """What is said of a verdict that is potential at each m that fits."""
    if not answer.tried:
        return None
    return "potential with each number of callers remembered that fits: %s" % ", ".join(map(str, answer.tried))


def verdict(text: bytes, m: Optional[int] = None) -> Answer:
    """What is said of a grammar, at m or at the first m that is enough."""
    return answered(text, m, certify=False)


def certified(text: bytes, m: Optional[int] = None) -> Answer:
    """The certificate of a grammar, as ambig-certify prints it; else its verdict, and two trees if they are found."""
    return answered(text, m, certify=True)


def answered(text: bytes, m: Optional[int], certify: bool) -> Answer:
    """The verdict, or the certificate in its place."""
    found = found_in(text)
    if found is None:
        return unread(text)
    refusal = None if m is None else refusal_at(found.grammar, m)
    if refusal is not None:
        return not_at(refusal, found, m)
    answer = judged(found, m, look=certify)
    lines = lines_at(text, found, answer)
    if not isinstance(answer.result, Potential):
        if not certify:
            return Answer(lines, YES)
        form = CHECKED if has_form(states_at(found.grammar, answer.m), CHECKED) else RUNS
        return Answer(lines_of(found, answer.result.certificate, form, answer.m).decode("ascii"), YES)
    if certify:
        return with_trees(text, found, answer, lines)
    return Answer(lines, POTENTIAL, note=note_of(answer))


def with_trees(text: bytes, found: Found, answer: Judged, lines: str) -> Answer:
    """A potential verdict, with two trees if they are found."""
    named = named_of(text, found.text)
    strings = sides(triples_of(found.grammar, answer.m), answer.result.witness)
    if answer.trees is None:
        lines += "no sentence with two trees was found: the alarm may be false\n"
        return Answer(lines, POTENTIAL, note=note_of(answer), parting=headline(named, "potential", of_strings(strings)))
    told = explained(named, answer.trees, strings)
    return Answer(lines + told.lines, NO, parting=headline(named, "ambiguous", told.parting))


def checked(text: bytes, lines: bytes) -> Answer:
    """What is said of a printed certificate."""
    found = found_in(text)
    if found is None:
        return unread(text)
    read = read_in(found, lines)
    if isinstance(read, Malformed):
        return Answer("malformed\n", NO, None, read)
    result = check_certificate(*found.table, read.certificate, read.m)
    return Answer(refused(result), NO) if isinstance(result, Refusal) else Answer("accepted\n", YES)


def shown(path: str) -> str:
    """A file's name in messages: no line break and nothing that a terminal obeys."""
    name = path.encode("utf-8", "replace").decode("utf-8", "replace")
    return "<stdin>" if path == "-" else "".join(c if c.isprintable() else repr(c)[1:-1] for c in name)


def contents(path: str, most: int) -> bytes:
    """The front of a file; what is longer is refused anyway."""
    if path == "-":
        return sys.stdin.buffer.read(most)
    with open(path, "rb") as file:
        return file.read(most)


def version() -> str:
    with open(VERSION_FILE, encoding="ascii") as file:
        return file.read().strip()


def callers_of(word: str) -> int:
    """A number of callers; ValueError if it is none."""
    if not word.isascii() or not word.isdigit() or len(word) > 20:
        raise ValueError(word)
    return int(word)


def parser() -> argparse.ArgumentParser:
    words = argparse.ArgumentParser(
        prog="judge.py", description=__doc__, epilog=STATUS,
        formatter_class=argparse.RawDescriptionHelpFormatter)
    words.add_argument("grammar", metavar="GRAMMAR")
    words.add_argument("certificate", metavar="CERTIFICATE", nargs="?", default=None)
    words.add_argument("-c", "--certificate", action="store_true", dest="certify",
                       help="print the certificate, as ambig-certify does; for a potential verdict look for two trees")
    words.add_argument("-m", "--callers", metavar="M", type=callers_of, default=None,
                       help="judge remembering M callers, 0, 1 or 2, alone")
    words.add_argument("-q", "--quiet", action="store_true", help="say nothing on standard error")
    words.add_argument("--titled", action="store_true", help="print a line 'file=' with the grammar's file first")
    words.add_argument("-V", "--version", action="version", version="judge.py " + version())
    return words


def asked_for(words: Sequence[str]) -> argparse.Namespace:
    """The words of a command; SystemExit for --help, and if they are wrong."""
    asked = parser().parse_args(words)
    if asked.grammar == asked.certificate == "-":
        parser().error("standard input can be read once only")
    if asked.certify and asked.certificate is not None:
        parser().error("--certificate prints one, and checks none")
    if asked.callers is not None and asked.certificate is not None:
        parser().error("a certificate says its own number of callers")
    return asked


def said(printed: str) -> bool:
    """Whether standard output took it."""
    try:
        if sys.stdout is None:
            raise OSError(0, "it is closed")
        print(printed, end="", flush=True)
        return True
    except OSError as error:
        print("standard output: %s" % error.strerror, file=sys.stderr)
        # Nothing more can be written there, not even at the end.
        if sys.stdout is not None:
            os.dup2(os.open(os.devnull, os.O_WRONLY), sys.stdout.fileno())
        return False


def run(words: Sequence[str]) -> int:
    """Prints the answer; gives the exit status."""
    try:
        asked = asked_for(words)
    except SystemExit as ended:
        return MISUSE if ended.code else YES
    data = []
    files = [(asked.grammar, MOST)]
    files += [] if asked.certificate is None else [(asked.certificate, MOST_BYTES + 1)]
    for path, most in files:
        try:
            data.append(contents(path, most))
        except (OSError, ValueError) as error:
            print("%s: error: %s" % (shown(path), getattr(error, "strerror", None) or error), file=sys.stderr)
            return MISUSE
    answer = checked(*data) if len(data) == 2 else answered(*data, asked.callers, asked.certify)
    for path, fault in [(asked.grammar, answer.grammar_fault), (asked.certificate, answer.certificate_fault)]:
        if fault is not None and not asked.quiet:
            print("%s:%d:%d: error: %s" % (shown(path), fault.line, fault.column, fault.message), file=sys.stderr)
    if answer.parting is not None and not asked.quiet:
        print("%s:%d:%d: %s" % (shown(asked.grammar), *answer.parting), file=sys.stderr)
    if answer.note is not None and not asked.quiet:
        print("%s: %s" % (shown(asked.grammar), answer.note), file=sys.stderr)
    title = "file=%s\n" % shown(asked.grammar) if asked.titled else ""
    return answer.status if said(title + answer.printed) else MISUSE


if __name__ == "__main__":
    sys.exit(run(sys.argv[1:]))
