"""How long a draft's edits take, beside plain C: drafts at the limits, and grammars of the benchmark.

Options: --seconds N for each grammar (0.1); --archive FILE, a static library with the library's functions, in place of the one that
rt lib makes. The compiler is $CC or gcc, with -O3.
"""

import argparse
import os
import statistics
import subprocess
import sys

import results
from grammars import MAX_LENGTH, MAX_RULES, MAX_STATES, Grammar, grammars
from search import BENCH, FLAGS, ROOT, WORK, archive, ratio, run

CALLS = "new", "withdraw 1", "return", "mark", "withdraw last", "add", "equal rule"


def full():
    """Drafts with the most rules or the most states, as lines of grammars.py."""
    left = MAX_STATES - 4 - 2 * MAX_RULES
    yield Grammar("most-of-both", ["S: " + " | ".join(f"a t{i}" if i < left else f"t{i}" for i in range(MAX_RULES))]).line()
    yield Grammar("most-nonterminals", [f"X{i}: X{i + 1}" for i in range(MAX_RULES - 1)] + [f"X{MAX_RULES - 1}: a"]).line()
    long, rest = divmod(MAX_STATES - 4, MAX_LENGTH + 1)
    ends = [f"a a a a a a a a a a a t{i}" for i in range(long)] + ["a " * (rest - 1)] * (rest > 1)
    yield Grammar("longest-rules", ["S: " + " | ".join(ends)]).line()


def build(options):
    WORK.mkdir(parents=True, exist_ok=True)
    program = WORK / "drafts"
    run(os.environ.get("CC", "gcc"), *FLAGS, "-I", ROOT / "bindings" / "c", BENCH / "drafts.c", *archive(options), "-o", program)
    return program


def main():
    parser = argparse.ArgumentParser(description=__doc__, formatter_class=argparse.RawDescriptionHelpFormatter)
    parser.add_argument("--seconds", type=float, default=0.1)
    parser.add_argument("--archive")
    options = parser.parse_args()
    options.stand_in = False
    program = build(options)
    listed = WORK / "drafts.txt"
    listed.write_text("".join(line + "\n" for line in [*full(), *(grammar.line() for grammar in grammars())]))
    print(f"load {os.getloadavg()[0]:.1f} on {os.cpu_count()} processors")
    print(f"{'':22s} {'':5s} {'':4s}" + "".join(f"  {call:<13s}" for call in CALLS))
    print(f"{'grammar':22s} {'rules':>5s} {'Q':>4s}" + f"  {'us':>6s} {'plain':>6s}" * len(CALLS))
    found = {call: [] for call in CALLS}
    with subprocess.Popen([program, listed, str(options.seconds)], stdout=subprocess.PIPE, text=True) as process:
        for line in process.stdout:
            name, rules, states, *times = line.split()
            pairs = [(float(ours), float(plain)) for ours, plain in zip(times[::2], times[1::2])]
            for call, (ours, plain) in zip(CALLS, pairs):
                found[call].append((ours, ratio(ours, plain)))
                results.note(f"draft: {call}", name, states, ours, plain)
            print(f"{name:22s} {rules:>5s} {states:>4s}" + "".join(
                f"  {ours / 1000:6.2f} {ratio(ours, plain):6.2f}" for ours, plain in pairs), flush=True)
    if process.returncode != 0:
        print("the library and plain C disagree")
        return 1
    print("above 1 the library is faster")
    for call, both in found.items():
        times, ratios = zip(*both)
        print(f"{call}: slowest {max(times) / 1000:.2f} us; beside plain C median {statistics.median(ratios):.2f},"
              f" worst {min(ratios):.2f}, best {max(ratios):.2f}")
    return 0


if __name__ == "__main__":
    sys.exit(main())
