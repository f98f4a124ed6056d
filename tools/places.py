#!/usr/bin/env python3
"""Counts the places of docs/DESIGN-PASS.md in crates/*/src: python3 tools/places.py [POINT]. With a point it lists them."""
import collections
import glob
import re
import sys

SOURCES = {path: open(path).read() for path in sorted(glob.glob("crates/*/src/*.rt"))}
FUNCTION = re.compile(
    r"^( *)(?:pub )?(?:extern \"C\" )?fn (\w+)(?:<[^>]*>)?\(((?:[^()]|\([^()]*\))*)\)(?:[^\n{]*\{\n|.*?^\1\{\n)(.*?)^\1\}\n", re.M | re.S
)


def lines(pattern):
    for path, text in SOURCES.items():
        for number, line in enumerate(text.split("\n"), 1):
            if re.search(pattern, line.split("//")[0]):
                yield f"{path}:{number}: {line.strip()}"


def functions():
    for path, text in SOURCES.items():
        for found in FUNCTION.finditer(text):
            yield path, found.group(2), found.group(3), found.group(4)


def enums():
    """1: own enums, and among them those with a case for a refusal by number or by cause."""
    return list(lines(r"^\s*(pub )?enum "))


def refusals():
    """1: cases that hold a cause and a position."""
    return list(lines(r"^\s+\w+\((u8|Cause), usize\),"))


def numbers():
    """1: constants that number causes."""
    return [place for place in lines(r"^pub const \w+: u8 = \d+;") if "crates/grammar/" in place]


def flags():
    """1: functions that answer a bool and write a value, and structs with a bool beside values."""
    found = []
    for path, text in SOURCES.items():
        for struct in re.finditer(r"struct (\w+)[^{;]*\{([^}]*)\}", text):
            if re.search(r": bool\b", struct.group(2)):
                found.append(f"{path}: struct {struct.group(1)}")
    return found


def twins():
    """2: functions whose bodies are the same but for names and numbers."""
    shapes = collections.defaultdict(list)
    for path, name, _, body in functions():
        shape = re.sub(r"\s+", " ", re.sub(r"\b\w+\b", "_", re.sub(r"//.*", "", body)))
        if len(shape) > 20:
            shapes[shape].append(f"{path}: {name}")
    return ["; ".join(group) for group in shapes.values() if len(group) > 1]


def loops():
    """3: while and loop."""
    return list(lines(r"^\s*('\w+: )?(while|loop)\b"))


def counted():
    """3: those among them that step the variable of their test by one, over a range that their body doesn't change."""
    found = []
    for path, text in SOURCES.items():
        for loop in re.finditer(r"^( *)(?:'\w+: )?while ([^\n]*) \{\n(.*?)^\1\}", text, re.M | re.S):
            test, body = loop.group(2), loop.group(3)
            for step in re.finditer(r"\b(\w+) [+-]= 1;", body):
                name = step.group(1)
                bound = re.fullmatch(rf"{name}(?: \+ 1)? (?:<|<=|!=) (.*)|(.*) (?:<|<=) {name}", test)
                if bound is None:
                    continue
                others = re.findall(r"\b[a-z_]\w*\b", bound.group(1) or bound.group(2))
                if not any(re.search(rf"\b{other} [+-]?= ", body) for other in others):
                    found.append(f"{path}:{text[: loop.start()].count(chr(10)) + 1}: {name} in {test}")
                    break
    return found


def fors():
    """3: for loops, for comparison."""
    return list(lines(r"^\s*('\w+: )?for \w"))


def conversions():
    """4: functions that only widen a number, or answer it."""
    return [f"{path}: {name}" for path, name, arguments, body in functions() if re.fullmatch(r"\s*(\w+)( as \w+)?\s*", body) and arguments.count(":") == 1]


def comparisons():
    """4: functions that compare slices element by element."""
    return [f"{path}: {name}" for path, name, _, body in functions() if re.search(r"\w+\[\w+\] != \w+\[\w+\]", body)]


def together():
    """5: functions that take four parameters which as many as three functions take side by side."""
    runs = collections.Counter()
    taken = {}
    for path, name, arguments, _ in functions():
        names = re.findall(r"(\w+):", arguments)
        taken[f"{path}: {name}"] = names
        for at in range(len(names) - 3):
            runs[tuple(names[at : at + 4])] += 1
    often = {run for run, count in runs.items() if count >= 3}
    return [place for place, names in taken.items() if any(tuple(names[at : at + 4]) in often for at in range(len(names) - 3))]


def beside():
    """6: structs that hold an array, or parameters of a slice with a count beside it."""
    found = []
    for path, text in SOURCES.items():
        for struct in re.finditer(r"struct (\w+)[^{;]*\{([^}]*)\}", text):
            if re.search(r": \[", struct.group(2)) and re.search(r"\b(count|used|length|size): ", struct.group(2)):
                found.append(f"{path}: struct {struct.group(1)}")
    for path, name, arguments, _ in functions():
        if re.search(r"\[\w+\], (?:\w+: [^,]*, )?(count|used): usize", re.sub(r"\s+", " ", arguments)):
            found.append(f"{path}: {name}")
    return found


def switches():
    """7: a number or flag that says which step to run."""
    return list(lines(r"\b(mode|phase|stage|which|step_kind): (u8|usize|bool)"))


def proofs():
    """8: lines of proof files of functions."""
    total = 0
    for path in glob.glob("crates/*/proofs/**/*.antt", recursive=True):
        if re.search(r"/(Answers|Invariants|Proof)\.antt$", path):
            total += open(path).read().count("\n")
    return [f"{total} lines"]


COUNTS = [enums, refusals, numbers, flags, twins, loops, counted, fors, conversions, comparisons, together, beside, switches, proofs]

for count in COUNTS:
    if len(sys.argv) > 1:
        if count.__name__ == sys.argv[1]:
            print("\n".join(count()))
    else:
        places = count()
        print(f"{count.__name__}: {places[0] if count is proofs else len(places)}")
