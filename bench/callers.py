"""How long searches, certificate checks and rooms take with 0, 1 and 2 remembered callers, beside plain C and beside the same algorithm
in C: the grammars of the benchmark, where the states fit, and grammars whose chains of callers are too many. With callers the largest
certificate that is accepted is checked too.

Options: --seconds N for each grammar and number of callers (0.1); --archive FILE, a static library with the library's functions, in
place of the one that rt lib makes; --only WORD, the grammars whose names have it. The compiler is $CC or gcc, with -O3.
"""

import argparse
import os
import statistics
import subprocess
import sys

import results
from grammars import MAX_LENGTH, MAX_STATES, Grammar, grammars
from search import BENCH, FLAGS, SOURCES, WORK, archive, ratio, run

LARGE = 40


def documents():
    """Document 02's grammar of a biology group; its eight-channel set is one of the benchmark's."""
    yield Grammar("biology", ["S: b A c | b e d | A d", "A: e"])


def hostile():
    """Chains that blow up: at the first caller, with the most places that call; at the second, behind 1,024 states with one; and among
    many nonterminals."""
    led = [" ".join(["S"] * length) for length in range(MAX_LENGTH + 1)]
    led += [f"t{i} " + ("S S" if i < 194 else "S") for i in range(245)]
    yield Grammar("every-place-calls", ["S: " + " | ".join(led)])
    # Y has 12 callers, and so has Z, which has 144 chains of two.
    called = [f"Y: y{i} " + "x " * 11 for i in range(5)] + ["Y: " + "Z " * 12, "Z: z"]
    yield Grammar("second-caller", ["S: " + "Y " * 12] + [f"S: s{i} " + "x " * (10 - (i == 3)) for i in range(4)] + called)
    names = [f"X{i}" for i in range(39)]
    rules = [f"{name}: " + " ".join(names[(i + k) % len(names)] for k in range(MAX_LENGTH)) + f" | {name} t | a{i}"
             for i, name in enumerate(names)]
    yield Grammar("all-call-all", rules)


def build(options):
    WORK.mkdir(parents=True, exist_ok=True)
    compiler = os.environ.get("CC", "gcc")
    program = WORK / "callers"
    sources = [BENCH / source for source in SOURCES + ("callers.c",)]
    run(compiler, *FLAGS, *sources, *archive(options), "-o", program)
    return program


LABELS = ("search: plain C that finishes the set", "search: the same algorithm in C", "search: plain C that stops", "check: plain C",
          "check: the same algorithm in C", "largest: plain C", "largest: the same algorithm in C")


def summary(found, callers):
    """Median, worst and best of each ratio, over the grammars of 40 states or more, and what a state of the automaton takes."""
    print(f"{callers} callers, over the {len(found['room'])} grammars of {LARGE} states or more:")
    for label in LABELS:
        taken = found[label]
        if taken:
            print(f"  {label:38s} median {statistics.median(taken):5.2f}   worst {min(taken):5.2f}   best {max(taken):5.2f}"
                  f"   of {len(taken)}")
    print(f"  {'room, nanoseconds a state':38s} median {statistics.median(found['room']):5.1f}   most {max(found['room']):5.1f}")


def note(entry, words, library, plain):
    """What search.py or rooms.py has noted without callers counts once. A number of states that is too large is no size to grow with."""
    name, callers, states = words[0], int(words[1]), int(words[2])
    if not results.is_noted(entry, name, callers):
        results.note(entry, name, states if states <= MAX_STATES else 0, library, plain, callers)


def line_of(words, found):
    """A line of the table; its ratios go to what is found, its times to the results."""
    name, callers, states, verdict, reached = words[:5]
    library, plain, same, stops, *checks, room, room_plain = map(float, words[5:])
    text = f"{name:22s} {callers} {states:>5s} {verdict:11s}"
    if verdict == "refused":
        note(results.ROOM + ", too many states", words, room, room_plain)
        return text + f" {'':75s} {room / 1000:8.2f} {ratio(room, room_plain):6.2f}"
    note(results.SEARCH, words, library, plain)
    note(results.STOPS, words, library, stops)
    note(results.ROOM, words, room, room_plain)
    searched = ratio(library, plain), ratio(library, same), ratio(library, stops)
    ratios = dict(zip(LABELS, searched))
    text += f" {reached:>7s} {library / 1000:9.2f}" + "".join(f" {x:5.2f}" for x in searched)
    for entry, labels, place in ((results.CHECK, LABELS[3:5], 0), (results.LARGEST, LABELS[5:7], 3)):
        own, *others = checks[place:place + 3]
        if own:
            note(entry, words, own, others[0])
            ratios.update((label, ratio(own, other)) for label, other in zip(labels, others))
        text += f" {own / 1000:8.2f} {ratios[labels[0]]:5.2f} {ratios[labels[1]]:5.2f}" if own else f" {'':20s}"
    if int(states) >= LARGE:
        for label, x in ratios.items():
            found[int(callers)][label].append(x)
        found[int(callers)]["room"].append(room / int(states))
    return text + f" {room / 1000:8.2f} {ratio(room, room_plain):6.2f}"


def main():
    parser = argparse.ArgumentParser(description=__doc__, formatter_class=argparse.RawDescriptionHelpFormatter)
    parser.add_argument("--seconds", type=float, default=0.1)
    parser.add_argument("--archive")
    parser.add_argument("--only", default="")
    options = parser.parse_args()
    options.stand_in = False
    program = build(options)
    listed = WORK / "callers.txt"
    lines = [grammar.line() for grammar in [*documents(), *grammars(), *hostile()] if options.only in grammar.name]
    listed.write_text("".join(line + "\n" for line in lines))
    print(f"load {os.getloadavg()[0]:.1f} on {os.cpu_count()} processors")
    print(f"{'':22s} {'':1s} {'':5s} {'':11s} {'':7s} search                      certificate check    largest certificate  room")
    print(f"{'grammar':22s} m {'Q':>5s} {'verdict':11s} {'reached':>7s} {'us':>9s} {'plain':>5s} {'same':>5s} {'stops':>5s} {'us':>8s}"
          f" {'plain':>5s} {'same':>5s} {'us':>8s} {'plain':>5s} {'same':>5s} {'us':>8s} {'plain':>6s}")
    found = [{label: [] for label in LABELS + ("room",)} for _ in range(3)]
    with subprocess.Popen([program, listed, str(options.seconds)], stdout=subprocess.PIPE, text=True) as process:
        for line in process.stdout:
            print(line_of(line.split(), found), flush=True)
    if process.returncode != 0:
        print("the library and C disagree")
        return 1
    print("above 1 the library is faster")
    for callers, ratios in enumerate(found):
        if ratios["room"]:
            summary(ratios, callers)
    return 0


if __name__ == "__main__":
    sys.exit(main())
