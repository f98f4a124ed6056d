"""How long the room of a search and the length of a text take to tell, beside plain C: the grammars of the benchmark, and grammars
that are made to be slow.

Options: --seconds N for each grammar (0.1); --archive FILE, a static library with the library's functions, in place of the one that
rt lib makes. The compiler is $CC or gcc, with -O3.
"""

import argparse
import os
import statistics
import subprocess
import sys

import results
from grammars import MAX_LENGTH, MAX_RULES, MAX_SYMBOLS, START, Grammar, grammars, line_of
from search import BENCH, FLAGS, ROOT, WORK, archive, ratio, run


def slow():
    """As lines of grammars.py."""
    led = [" ".join(["S"] * length) for length in range(MAX_LENGTH + 1)]
    led += [f"t{i} " + ("S S" if i < 194 else "S") for i in range(245)]
    yield Grammar("most-moves", ["S: " + " | ".join(led)]).line()
    last = MAX_RULES - 1
    deepest = [f"X{last}: a"] + [f"X{i}: X{i + 1}" for i in range(last - 1, 0, -1)]
    yield Grammar("deepest-rule-first", ["X0: X1"] + deepest).line()
    yield Grammar("equal-beginnings", ["S: " + " | ".join("a a a t%d" % i for i in range(200))]).line()
    yield line_of("every-name", MAX_SYMBOLS, MAX_SYMBOLS, [START, 1, 1])


def build(options):
    WORK.mkdir(parents=True, exist_ok=True)
    program = WORK / "rooms"
    run(os.environ.get("CC", "gcc"), *FLAGS, "-I", ROOT / "bindings" / "c", BENCH / "rooms.c", *archive(options), "-o", program)
    return program


def main():
    parser = argparse.ArgumentParser(description=__doc__, formatter_class=argparse.RawDescriptionHelpFormatter)
    parser.add_argument("--seconds", type=float, default=0.1)
    parser.add_argument("--archive")
    options = parser.parse_args()
    options.stand_in = False
    program = build(options)
    listed = WORK / "rooms.txt"
    listed.write_text("".join(line + "\n" for line in [*slow(), *(grammar.line() for grammar in grammars())]))
    print(f"load {os.getloadavg()[0]:.1f} on {os.cpu_count()} processors")
    print(f"{'':22s} {'':4s} {'':6s}  room             text")
    print(f"{'grammar':22s} {'Q':>4s} {'moves':>6s} {'us':>8s} {'plain':>6s} {'bytes':>6s} {'us':>8s} {'plain':>6s}")
    found = {"room": [], "length": []}
    with subprocess.Popen([program, listed, str(options.seconds)], stdout=subprocess.PIPE, text=True) as process:
        for line in process.stdout:
            name, states, moves, length, *times = line.split()
            room, plain_room, text, plain_text = map(float, times)
            found["room"].append((room, ratio(room, plain_room)))
            found["length"].append((text, ratio(text, plain_text)))
            results.note(results.ROOM, name, states, room, plain_room, 0)
            results.note("length of a text", name, states, text, plain_text)
            print(f"{name:22s} {states:>4s} {moves:>6s} {room / 1000:8.2f} {ratio(room, plain_room):6.2f}"
                  f" {length:>6s} {text / 1000:8.2f} {ratio(text, plain_text):6.2f}", flush=True)
    if process.returncode != 0:
        print("the library and plain C disagree")
        return 1
    print("above 1 the library is faster")
    for entry, both in found.items():
        times, ratios = zip(*both)
        print(f"{entry}: slowest {max(times) / 1000:.2f} us; beside plain C median {statistics.median(ratios):.2f},"
              f" worst {min(ratios):.2f}, best {max(ratios):.2f}")
    return 0


if __name__ == "__main__":
    sys.exit(main())
