"""How fast the library's search and certificate check are, beside plain C and beside the same algorithm in C. Checked are of each
unambiguous grammar the certificate that the search wrote and the largest one that is accepted, and certificates that are made to be slow.

    python3 bench/search.py               builds all, times all, prints the table
    python3 bench/search.py check         builds all, and compares each with the second program on all of its cases

Options: --seconds N for each grammar (0.5); --archive FILE, a static library with the library's functions, in place of the one
that rt lib makes; --stand-in, same.c in place of the library; --only WORD, the grammars whose names have it, or hostile for
the certificates that are made to be slow.
The compiler is $CC or gcc, with -O3. README.md beside this file says what the numbers mean.
"""

import argparse
import os
import pathlib
import re
import statistics
import subprocess
import sys

import results

ROOT = pathlib.Path(__file__).resolve().parent.parent
BENCH = ROOT / "bench"
WORK = ROOT / "target" / "bench"
SOURCES = ("plain.c", "same.c")
FLAGS = ["-O3", "-std=c11", "-Wall", "-Wextra", "-D_POSIX_C_SOURCE=199309L"]
PARTIES = {"search": ("plain", "whole", "same", "library"), "certificate": ("plain", "same", "library")}
LARGE, LARGEST = 40, 900
HOSTILE_RULES = (40, 62, 125, 250)


def run(*words, **more):
    return subprocess.run([str(word) for word in words], check=True, **more)


def archive(options):
    """The static library, as words for the linker; none if same.c stands in."""
    if options.stand_in:
        return []
    if options.archive:
        return [options.archive]
    folder = ROOT / "crates" / "ambiguity_c"
    run("rt", "lib", cwd=folder)
    return [folder / "out" / "libambiguity_c.a"]


def build(options, driver):
    WORK.mkdir(parents=True, exist_ok=True)
    compiler = os.environ.get("CC", "gcc")
    flags = FLAGS + ["-DSTAND_IN"] * options.stand_in
    objects = []
    for source in SOURCES + (driver + ".c",):
        objects.append(WORK / (source + ".o"))
        run(compiler, *flags, "-c", BENCH / source, "-o", objects[-1])
    program = WORK / driver
    run(compiler, "-o", program, *objects, *archive(options))
    return program


def ratio(library, other):
    """Time of the other over time of the library: above 1 the library is faster."""
    return other / library


def summary(found, least, title):
    """Median, worst and best of each ratio, over the grammars of at least so many states, and the library's slowest call."""
    print(f"{title}:")
    for label, compared in found.items():
        taken = [line for line in compared if line[0] >= least]
        if taken:
            ratios = [ratio(library, other) for _, _, library, other in taken]
            _, name, slowest, _ = max(taken, key=lambda line: line[2])
            print(f"  {label:40s} median {statistics.median(ratios):5.2f}   worst {min(ratios):5.2f}   best {max(ratios):6.2f}"
                  f"   of {len(taken):2d}   slowest {slowest / 1000:9.2f} us ({name})")


LABELS = (
    "search: plain C", "search: plain C, unambiguous grammars", "search: plain C that finishes the set",
    "search: the same algorithm in C", "check: plain C", "check: the same algorithm in C", "largest: plain C",
    "largest: the same algorithm in C")


def hostile(options):
    """The certificate check on certificates that are made to be slow; hostile.c says which."""
    program = build(options, "hostile")
    print("hostile certificates, milliseconds of a check:")
    print(f"  {'kind':9s} {'Q':>4s} {'pairs':>6s} {'successors':>10s} {'library':>9s} {'plain C':>9s} {'same':>9s}")
    words = [program, str(options.seconds), *map(str, HOSTILE_RULES)]
    with subprocess.Popen(words, stdout=subprocess.PIPE, text=True) as process:
        for line in process.stdout:
            kind, states, pairs, successors, *spent = line.split()
            spent = [float(x) for x in spent]
            shown = ("-" if x == 0 else f"{x:.3f}" for x in spent)
            print(f"  {kind:9s} {states:>4s} {pairs:>6s} {successors:>10s}" + "".join(f" {x:>9s}" for x in shown), flush=True)
            if spent[0] != 0:
                results.note("check: certificates made to be slow", f"{kind}-{states}", states, 1e6 * spent[0], 1e6 * spent[1], 0)
    return process.returncode


def line_of(words, found):
    """A line of the table; what is compared goes to what is found and to the results."""
    name, states, verdict, _, reached = words[:5]
    library, plain, whole, same, check, check_plain, check_same, held, largest, largest_plain, largest_same = map(float, words[5:])
    compared = [(library, plain), (library, plain) if check else None, (library, whole), (library, same)]
    compared += [(check, check_plain), (check, check_same), (largest, largest_plain), (largest, largest_same)] if check else []
    for label, pair in zip(LABELS, compared):
        if pair is not None:
            found[label].append((int(states), name, *pair))
    results.note(results.SEARCH, name, states, library, whole, 0)
    results.note(results.STOPS, name, states, library, plain, 0)
    text = f"{name:22s} {states:>4s} {verdict:11s} {reached:>7s} {library / 1000:8.2f}" + "".join(
        f" {ratio(library, other):6.2f}" for other in (plain, whole, same))
    if check:
        results.note(results.CHECK, name, states, check, check_plain, 0)
        results.note(results.LARGEST, name, states, largest, largest_plain, 0)
        text += f" {check / 1000:8.2f}" + "".join(f" {ratio(check, other):6.2f}" for other in (check_plain, check_same))
        text += f" {held:7.0f} {largest / 1000:8.2f}" + "".join(f" {ratio(largest, other):6.2f}" for other in (largest_plain, largest_same))
    return text


def times(options):
    program = build(options, "search")
    listed = WORK / "grammars.txt"
    run(sys.executable, BENCH / "grammars.py", listed)
    lines = [line for line in listed.read_text().splitlines() if options.only in line.split()[0]]
    listed.write_text("\n".join(lines) + "\n")
    if options.stand_in:
        print("same.c stands in for the library")
    print(f"load {os.getloadavg()[0]:.1f} on {os.cpu_count()} processors; all that is lent is garbage before each call")
    print(f"{'':22s} {'':4s} {'':11s} {'':7s}  search                        certificate check      largest certificate")
    print(f"{'grammar':22s} {'Q':>4s} {'verdict':11s} {'reached':>7s} {'us':>8s} {'plain':>6s} {'whole':>6s} {'same':>6s}"
          f" {'us':>8s} {'plain':>6s} {'same':>6s} {'held':>7s} {'us':>8s} {'plain':>6s} {'same':>6s}")
    found = {label: [] for label in LABELS}
    with subprocess.Popen([program, listed, str(options.seconds)], stdout=subprocess.PIPE, text=True) as process:
        for line in process.stdout:
            print(line_of(line.split(), found), flush=True)
    if process.returncode != 0:
        print("the searches or checks disagree")
        return 1
    print("above 1 the library is faster")
    summary(found, 0, "over all grammars")
    summary(found, LARGE, f"over those of {LARGE} states or more")
    summary(found, LARGEST, f"over those of {LARGEST} states or more")
    if options.only in "hostile" and hostile(options) != 0:
        print("the checks disagree on a hostile certificate")
        return 1
    return 0


def second(kind):
    """The second program's cases and answers."""
    cases, answers = WORK / f"{kind}.cases", WORK / f"{kind}.answers"
    run(sys.executable, ROOT / "second" / f"{kind}_cases.py", "cases", cases)
    run(sys.executable, ROOT / "second" / f"{kind}_cases.py", "answers", cases, answers, WORK / f"{kind}.counts")
    return cases, answers.read_bytes()


def check(options):
    program = build(options, "answers")
    failed = 0
    for kind in ("search", "certificate"):
        cases, expected = second(kind)
        for party in PARTIES[kind]:
            found = WORK / f"{party}.found"
            words = [program, kind, party] + [found] * (kind == "search")
            with open(cases, "rb") as file:
                done = subprocess.run(words, stdin=file, stdout=subprocess.PIPE, check=False)
            # Witnesses are judged below; plain C stops at (1,1,1), and does not count what it looks at.
            untold = rb" witness=.*| looked=\d+" if party == "plain" else rb" witness=.*"
            right = done.returncode == 0 and done.stdout == re.sub(untold, b"", expected)
            if right and kind == "search":
                words = [sys.executable, ROOT / "second" / "search_cases.py", "witness-ok", cases, found]
                right = subprocess.run(words, check=False).returncode == 0
            failed += not right
            print(f"{'ok' if right else 'FAILED'}: {kind}: {party}: {expected.count(10)} cases", flush=True)
    return 1 if failed else 0


def main():
    parser = argparse.ArgumentParser(description=__doc__, formatter_class=argparse.RawDescriptionHelpFormatter)
    parser.add_argument("verb", nargs="?", choices=["times", "check"], default="times")
    parser.add_argument("--seconds", type=float, default=0.5)
    parser.add_argument("--archive")
    parser.add_argument("--stand-in", action="store_true")
    parser.add_argument("--only", default="")
    options = parser.parse_args()
    return check(options) if options.verb == "check" else times(options)


if __name__ == "__main__":
    sys.exit(main())
