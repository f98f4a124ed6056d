"""How long the join of a robot's and a module's text takes on texts that are made to be slow, beside plain C: the least time of many
calls, for the joined table, for the joined text, and for the name of the last symbol.

Options: --seconds N for each pair (0.2); --archive FILE, a static library with the library's functions, in place of the one that rt
lib makes.
"""

import argparse
import itertools
import os
import subprocess
import sys

import results
from grammars import MAX_LENGTH, MAX_RULES, MAX_STATES, MAX_SYMBOLS
from search import BENCH, FLAGS, ROOT, WORK, archive, ratio, run
from texts import LONGEST, declared, equal_keys, lists, many_uses, too_many

PARTS = "table", "text", "name"
LONG_RULES = (MAX_STATES - 4) // (MAX_LENGTH + 1)     # rules of the most symbols
EQUAL = 250                                           # names with equal keys, in either text


def names_of(letter, count=MAX_SYMBOLS):
    """Terminals and nonterminals of 15 bytes; those of a kind differ in the last 3."""
    return declared(count, 15, letter * 12), declared(count, 15, letter * 11 + "-")


def rules(left, symbols, count, length):
    """Rules of one left side that are alike up to their last two symbols."""
    ends = itertools.islice(itertools.product(symbols, repeat=2), count)
    return "".join("rule=%s: %s\n" % (left, " ".join([symbols[0]] * (length - 2) + list(end))) for end in ends)


def text_of(names, count, length=2):
    """A text with these names and so many rules."""
    terminals, nonterminals = names
    return lists(terminals, nonterminals) + rules(nonterminals[0], terminals, count, length)


def capitals(text):
    """The text with its names in capitals."""
    lines = [line.split("=", 1) for line in text.splitlines()]
    return "".join("%s=%s\n" % (key, value.upper()) for key, value in lines)


def growing():
    """Both texts with more and more names and rules, all of them unequal."""
    for share in (16, 8, 4, 2):
        count, number = MAX_SYMBOLS // share, (MAX_STATES - 4) // 3 // share
        yield f"{2 * count} names and {number} rules in each, all others", *(
            text_of(names_of(letter, count), number) for letter in "xz")


def joined():
    """Each text without fault, and as large as it can be."""
    most = names_of("x")
    wide, many = text_of(most, LONG_RULES, MAX_LENGTH), text_of(most, (MAX_STATES - 4) // 3)
    units = lists(*most) + "".join("rule=%s: %s\n" % (most[1][0], name) for name in most[0][:MAX_RULES])
    others = lists(*most) + "".join("rule=%s: %s\n" % (most[1][0], name) for name in most[0][-MAX_RULES:])
    yield "the most names and states, the same in the module", wide, wide
    yield "the same in capitals", wide, capitals(wide)
    yield "the most names, rules of two symbols, the same in capitals", many, capitals(many)
    yield "the most names and rules, the same in the module", units, units
    yield "the most names and rules, other rules in the module", units, others
    yield "the most names, all others in the module", many, text_of(names_of("z"), (MAX_STATES - 4) // 3)
    yield "the most names, all of the other kind in the module", many, lists(*reversed(most))
    last = most[1][:-1] + most[0][-1:]
    yield "the most names, the last of the other kind in the module", many, lists(most[0][:-1], last)
    equal = list(itertools.islice(equal_keys(15, "x" * 4, "x" * 4), 2 * EQUAL))
    yield f"{EQUAL} names with equal keys in each, all others", *(
        text_of((part, ["S"]), MAX_STATES // 8) for part in (equal[:EQUAL], equal[EQUAL:]))
    yield f"{EQUAL} names with equal keys, the same in the module", *[text_of((equal[:EQUAL], ["S"]), MAX_STATES // 8)] * 2


def refused():
    """The largest robot with modules of 262,144 bytes, and such texts on both sides."""
    robot = text_of(names_of("x"), LONG_RULES, MAX_LENGTH)
    for label, text in (*too_many(), *many_uses()):
        yield f"the largest robot; module: {label}", robot, text
    for label, text in too_many():
        yield f"both: {label}", text, text


def build(options):
    WORK.mkdir(parents=True, exist_ok=True)
    program = WORK / "joins"
    sources = [BENCH / name for name in ("joins.c", "join.c", "read.c")]
    run(os.environ.get("CC", "gcc"), *FLAGS, "-I", ROOT / "bindings" / "c", *sources, *archive(options), "-o", program)
    return program


def timed(program, seconds, label, *texts):
    """Prints a line; back come the library's milliseconds for each part, or none if the answers differ."""
    files = [WORK / "robot.txt", WORK / "module.txt"]
    for file, text in zip(files, texts):
        assert len(text) <= LONGEST, label
        file.write_text(text, encoding="ascii")
    done = subprocess.run([program, str(seconds), *files], stdout=subprocess.PIPE, check=False)
    if done.returncode != 0:
        print(f"{label}: the library and plain C disagree")
        return None
    *times, answer = done.stdout.decode().split(" ", 2 * len(PARTS))
    own, plain = ([float(time) for time in times[place::2]] for place in (0, 1))
    for part, one, other in zip(PARTS, own, plain):
        results.note(f"join: {part}", label, len(texts[0]) + len(texts[1]), 1e6 * one, 1e6 * other)
    columns = " ".join(f"{one:8.3f} {ratio(one, other):6.2f}" for one, other in zip(own, plain))
    print(f"{columns}  {len(texts[0]):6d} {len(texts[1]):6d}  {answer.strip():18s}  {label}", flush=True)
    return own


def main():
    parser = argparse.ArgumentParser(description=__doc__, formatter_class=argparse.RawDescriptionHelpFormatter)
    parser.add_argument("--seconds", type=float, default=0.2)
    parser.add_argument("--archive")
    options = parser.parse_args()
    options.stand_in = False
    program = build(options)
    print(f"load {os.getloadavg()[0]:.1f} on {os.cpu_count()} processors")
    print(" ".join(f"{part:>8s} {'plain':>6s}" for part in PARTS) + f"  {'robot':>6s} {'module':>6s}  {'answer':18s}  texts")
    spent = [timed(program, options.seconds, *pair) for pair in (*growing(), *joined(), *refused())]
    if None in spent:
        return 1
    print("above 1 the library is faster")
    print("slowest, in ms: " + ", ".join(f"{part} {max(times):.3f}" for part, times in zip(PARTS, zip(*spent))))
    return 0


if __name__ == "__main__":
    sys.exit(main())
