"""Our verdicts on the corpus beside the conflicts that bison and menhir find, as Markdown.

    python3 bench/beside.py               the whole table, and the summary
    python3 bench/beside.py --differ      only the grammars of which not all say the same, and the summary

Options: --seconds N for each run of a tool (30); one that takes longer is told as "-".
Our verdicts are those of corpus/INDEX.tsv, and the second program's for the grammars of document 02's [11]. README.md beside this
file says what the columns mean. The end is 1 if some ambiguous grammar is said to be unambiguous.
"""

import argparse
import os
import re
import subprocess
import sys

from search import ROOT, WORK

sys.path.insert(0, str(ROOT / "second"))
from caller_grammars import BY_HAND, verdicts
from callers import MOST_CALLERS, states_at
from case_grammars import good
from corpus import AMBIGUOUS, FALSE_ALARM, NOTHING, POTENTIAL, UNAMBIGUOUS, entries, table_in
from tables import START

TRUTHS = {UNAMBIGUOUS: UNAMBIGUOUS, FALSE_ALARM: UNAMBIGUOUS, AMBIGUOUS: AMBIGUOUS}
# [11]'s grammar, and what it becomes with one rule and with two rules more between A and e: three sentences with one tree each.
CALLERS = "biology", "unambiguous-at-2-alone", "potential-at-each-m"
OF_CALLERS = "unambiguous, of [11]"
BISON = "y", "bison", "-Wnone", "-Wconflicts-sr", "-Wconflicts-rr", "-o", os.devnull
MENHIR = "mly", "menhir", "--table"
TOOLS = {"bison LALR": BISON, "bison canonical": (*BISON, "-Dlr.type=canonical-lr"),
         "menhir": MENHIR, "menhir canonical": (*MENHIR, "--canonical")}
NONE = "none"
# What menhir refuses before it looks for conflicts.
REFUSED = "cyclic", "hidden left recursion"


def judged():
    """Name, truth and table of each grammar, and by m our verdict and Q."""
    for entry in entries():
        if entry.truth in TRUTHS:
            ours = [(entry.verdict, entry.states), (entry.verdict_1, entry.states_1), (entry.verdict_2, entry.states_2)]
            yield entry.name, TRUTHS[entry.truth], table_in(entry.name), ours
    for name in CALLERS:
        table = BY_HAND[name]
        found = [POTENTIAL if potential else UNAMBIGUOUS for potential in verdicts(table)]
        yield name, OF_CALLERS, table, [(verdict, states_at(good(table), m)) for m, verdict in enumerate(found)]


def translate(table):
    """Writes a grammar for bison and for menhir. bison puts an end mark behind the start by itself; for menhir it is written."""
    grammar = good(table)
    sides = {}
    for rule in grammar.rules:
        words = [f"n{code - START}" if code >= START else f"T{code}" for code in rule.right]
        sides.setdefault(f"n{rule.left - START}", []).append(" ".join([*words, "{}"]))
    body = "".join(f"{left}: {' | '.join(rights)}\n;\n" for left, rights in sides.items())
    tokens = "".join(f"%token T{1 + i}\n" for i in range(grammar.terminals))
    (WORK / "beside.y").write_text(f"{tokens}%start n0\n%%\n{body}")
    (WORK / "beside.mly").write_text(f"{tokens}%token EOF\n%start <unit> main\n%%\nmain: n0 EOF {{}}\n;\n{body}")


def conflicts(tool, seconds):
    """What a tool says of the grammar that was translated last."""
    ending, *words = TOOLS[tool]
    try:
        told = subprocess.run([*words, "beside." + ending], cwd=WORK, env={**os.environ, "LC_ALL": "C"}, timeout=seconds,
                              stderr=subprocess.PIPE, text=True)
    except subprocess.TimeoutExpired:
        return NOTHING
    if told.returncode != 0:
        refused = [words for words in REFUSED if words in told.stderr]
        return refused[0] if refused else sys.exit(f"{tool}: {told.stderr}")
    found = re.findall(r"(\d+|one) (shift|reduce)/reduce conflict", told.stderr)
    return ", ".join(f"{count.replace('one', '1')} {kind[0]}/r" for count, kind in found) or NONE


def rows(seconds):
    """For each grammar its name, its truth, our verdicts with Q by m, and by tool what it says."""
    for name, truth, table, ours in judged():
        translate(table)
        yield name, truth, ours, {tool: conflicts(tool, seconds) for tool in TOOLS}


def differs(row):
    """Some m or tool shows that the grammar is unambiguous, and some other does not."""
    _, _, ours, tools = row
    return len({verdict == UNAMBIGUOUS for verdict, _ in ours if verdict != NOTHING}
               | {said == NONE for said in tools.values() if said != NOTHING}) > 1


def lines(head, body):
    for words in [head, ["---"] * len(head), *body]:
        print("| " + " | ".join(words) + " |")
    print()


def summary(found):
    """Who shows how many grammars to be unambiguous; back comes whether no ambiguous one is among them."""
    ours = {f"m {'≤' if most else '='} {most}": lambda row, most=most: UNAMBIGUOUS in dict(row[2][:most + 1])
            for most in range(MOST_CALLERS + 1)}
    tools = {tool: lambda row, tool=tool: row[3][tool] == NONE for tool in TOOLS}
    true = {truth: [row for row in found if row[1] == truth] for truth in (UNAMBIGUOUS, AMBIGUOUS, OF_CALLERS)}
    shown = {truth: [sum(map(shows, some)) for shows in [*ours.values(), *tools.values()]] for truth, some in true.items()}
    lines(["shown to be unambiguous", *ours, *tools],
          [[f"of {len(some)} {truth}", *map(str, shown[truth])] for truth, some in true.items()])
    names = {}
    for row in found:
        kind = any(shows(row) for shows in ours.values()), any(shows(row) for shows in tools.values())
        if row[1] != AMBIGUOUS:
            names.setdefault(kind, []).append(row[0])
    for kind, words in {(False, True): "without conflict in some tool, potential for us at each m that fits",
                        (True, False): "shown by us, not by any tool", (False, False): "unambiguous, shown by none"}.items():
        print(f"- {words}: {', '.join(names.get(kind, [NONE]))}")
    return not any(shown[AMBIGUOUS])


def main():
    parser = argparse.ArgumentParser(description=__doc__, formatter_class=argparse.RawDescriptionHelpFormatter)
    parser.add_argument("--differ", action="store_true")
    parser.add_argument("--seconds", type=float, default=30)
    options = parser.parse_args()
    WORK.mkdir(parents=True, exist_ok=True)
    found = list(rows(options.seconds))
    lines(["grammar", "truth", *(f"m = {m}" for m in range(MOST_CALLERS + 1)), *TOOLS],
          [[name, truth, *(verdict if states is None else f"{verdict}, {states}" for verdict, states in ours), *tools.values()]
           for name, truth, ours, tools in found if not options.differ or differs((name, truth, ours, tools))])
    return 0 if summary(found) else 1


if __name__ == "__main__":
    sys.exit(main())
