"""How long the reader takes on texts of 262,144 bytes that are made to be slow, beside plain C, and reading back on lines of 1 MB: the
least time of many calls.

Options: --seconds N for each text (0.2); --archive FILE, a static library with the library's functions, in place of the one that rt
lib makes.
"""

import argparse
import itertools
import os
import subprocess
import sys

from grammars import MAX_LENGTH, MAX_SYMBOLS
from search import BENCH, FLAGS, ROOT, WORK, archive, ratio, run
import results

LONGEST, LONGEST_LINES = 262144, 1 << 20
# Case does not count in names.
LETTERS = "abcdefghijklmnopqrstuvwxyz0123456789-"
# Letters that differ in one bit, the second highest.
ALIKE = "0p"
# The key of a name, by whose bits from KEY_SKIP on the library's tree goes first (crates/lexicon/specs/Tree.antt).
KEY_BITS, KEY_SKIP, KEY_SPAN, KEY_FACTOR = 24, 28, 1 << 32, 2654435761


def names(size, head="", letters=LETTERS):
    """Distinct names of a size, all with the same beginning."""
    for tail in itertools.product(letters, repeat=size - len(head)):
        yield head + "".join(tail)


def turns(name):
    """The bits of a name's key that the tree goes by."""
    key = 0
    for byte in name.encode("ascii"):
        key = (key % KEY_SPAN + byte) * KEY_FACTOR
    return key >> KEY_SKIP & (1 << KEY_BITS) - 1


def equal_keys(size, head, tail, wanted=0):
    """Distinct names of a size with the same beginning and end whose keys agree in all bits that the tree goes by. Of a key before its
    last product each byte is a summand, times a power of the factor: four bytes are looked up by what the others leave of it."""
    cut = size - len(tail) - 4
    powers = [pow(KEY_FACTOR, size - 1 - place, KEY_SPAN) for place in range(size)]
    ends = (three + one + tail for three in names(3) for one in LETTERS[:5])
    last = {sum(ord(c) * p for c, p in zip(end, powers[cut:])) % KEY_SPAN: end for end in ends}
    lows = ((high << KEY_BITS | wanted) << KEY_SKIP for high in range(1 << 64 - KEY_BITS - KEY_SKIP))
    sums = [-(-low // KEY_FACTOR) for low in lows if -low % KEY_FACTOR < 1 << KEY_SKIP]
    for front in names(cut, head):
        begun = sum(ord(c) * p for c, p in zip(front, powers))
        for total in sums:
            end = last.get((total - begun) % KEY_SPAN)
            if end is not None and turns(front + end) == wanted:
                yield front + end


def filled(front, pieces, separator, back, longest=LONGEST):
    """Pieces between front and back, as many as fit in so many bytes."""
    room = longest - len(front) - len(back)
    taken = []
    for piece in pieces:
        room -= len(piece) + len(separator)
        if room < 0:
            break
        taken.append(piece)
    return front + separator.join(taken) + back


def declared(count, size, head=""):
    return list(itertools.islice(names(size, head), count))


def lists(terminals, nonterminals):
    return "terminals=" + ",".join(terminals) + "\nnonterminals=" + ",".join(nonterminals) + "\n"


def too_many():
    """Lines with more names than a grammar may have: all must be looked at for a double."""
    end = "\nnonterminals=S\n"
    alike = "x" * 12
    yield "names of 1 byte, doubled", filled("terminals=", itertools.cycle(LETTERS), ",", end)
    yield "names of 2, 3 and 4 bytes, distinct", filled("terminals=", itertools.chain(names(2), names(3), names(4)), ",", end)
    yield "names of 4 bytes, distinct", filled("terminals=", names(4), ",", end)
    for size in (6, 10, 15):
        label = f"names of {size} bytes that differ in the last 3"
        yield label, filled("terminals=", names(size, alike[:size - 3]), ",", end)
    yield "the same, the last a double of the first", filled("terminals=", names(15, alike), ",", f",{alike}aaa{end}")
    yield "the same, the double in capitals", filled("terminals=", names(15, alike), ",", f",{alike.upper()}AAA{end}")
    yield "names of 15 bytes, of two letters", filled("terminals=", names(15, letters=ALIKE), ",", end)
    yield f"the second line, against {MAX_SYMBOLS} names of the first", filled(
        "terminals=" + ",".join(declared(MAX_SYMBOLS, 15, alike)) + "\nnonterminals=", names(15, "x" * 11 + "y"), ",", "\n")


def many_uses():
    """Rules with thousands of uses of names that are far down in a tree of names, or the last of a list."""
    few = lists(declared(MAX_SYMBOLS, 3), declared(62, 4, "zz"))
    last = declared(MAX_SYMBOLS, 3)[-1]
    yield "one rule line of thousands of names", filled(few + "rule=zzaa: ", itertools.repeat(last), " ", "\n")
    yield "thousands of rule lines", filled(few, itertools.repeat("rule=zzaa: " + " ".join([last] * MAX_LENGTH)), "\n", "\n")
    yield "thousands of short rule lines", filled(few, itertools.repeat("rule=zzaa:"), "\n", "\n")
    alike = declared(127, 15, "x" * 12)
    far = lists(alike, ["S"])
    yield "one rule line of names of 15 bytes", filled(far + "rule=S: ", itertools.repeat(alike[-1]), " ", "\n")
    yield "the same in capitals", filled(far + "rule=s: ", itertools.repeat(alike[-1].upper()), " ", "\n")
    yield "rule lines of names of 15 bytes", filled(far, itertools.repeat("rule=S: " + " ".join([alike[-1]] * MAX_LENGTH)), "\n", "\n")
    most = lists(declared(MAX_SYMBOLS, 15, "x" * 12), ["S"] + declared(MAX_SYMBOLS - 1, 15, "x" * 11 + "y"))
    yield "the most names, and rule lines of them", filled(
        most, ("rule=S: " + " ".join(declared(MAX_SYMBOLS, 15, "x" * 12)[k:k + MAX_LENGTH]) for k in range(MAX_SYMBOLS)), "\n", "\n")


def lines():
    """A text and lines of 1 MB that are read back in its grammar."""
    alike = declared(127, 15, "x" * 12)
    every = declared(MAX_SYMBOLS, 15, "x" * 12)
    equal = list(itertools.islice(equal_keys(15, "x" * 4, "x" * 4), 250))
    for label, terminals, words in (
            ("names of 15 bytes", alike, alike[-1:]), ("names of 1 byte", alike, ["S"]), ("openings", alike, ["(1"]),
            (f"{MAX_SYMBOLS} names of 15 bytes", every, every),
            (f"{len(equal)} names of 15 bytes with equal keys", equal, equal)):
        half = filled("left=", itertools.cycle(words), " ", "\n", LONGEST_LINES // 2)
        yield f"lines of 1 MB of {label}", lists(terminals, ["S"]) + "rule=S:\n", half + half.replace("left=", "right=", 1)


def build(options):
    WORK.mkdir(parents=True, exist_ok=True)
    program = WORK / "texts"
    run(os.environ.get("CC", "gcc"), *FLAGS, "-I", ROOT / "bindings" / "c", BENCH / "texts.c", BENCH / "read.c", *archive(options),
        "-o", program)
    return program


def timed(program, seconds, label, text, more=()):
    """Prints a line; back come the library's milliseconds, or none if the answers differ."""
    data = text.encode("ascii")
    assert len(data) <= LONGEST, label
    words = [program, str(seconds), *more]
    done = subprocess.run(words, input=data, stdout=subprocess.PIPE, check=False)
    if done.returncode != 0:
        print(f"{label}: the library and plain C disagree")
        return None
    results.note_text(bool(more), label, len(data), done.stdout.decode())
    library, plain, answer = done.stdout.decode().split(" ", 2)
    beside = f"{ratio(float(library), float(plain)):6.2f}" if float(plain) else " " * 6
    print(f"{float(library):8.3f} {beside}  {len(data):6d}  {answer.strip():24s}  {label}", flush=True)
    return float(library)


def main():
    parser = argparse.ArgumentParser(description=__doc__, formatter_class=argparse.RawDescriptionHelpFormatter)
    parser.add_argument("--seconds", type=float, default=0.2)
    parser.add_argument("--archive")
    options = parser.parse_args()
    options.stand_in = False
    program = build(options)
    print(f"load {os.getloadavg()[0]:.1f} on {os.cpu_count()} processors")
    print(f"{'ms':>8s} {'plain':>6s}  {'bytes':>6s}  {'answer':24s}  text")
    spent = [timed(program, options.seconds, *text) for text in (*too_many(), *many_uses())]
    back = []
    for label, text, both in lines():
        written = WORK / "lines.txt"
        written.write_text(both, encoding="ascii")
        back.append(timed(program, options.seconds, label, text, [written]))
    if None in spent + back:
        return 1
    print("above 1 the library is faster")
    print(f"slowest text {max(spent):.3f} ms, slowest lines {max(back):.3f} ms")
    return 0


if __name__ == "__main__":
    sys.exit(main())
