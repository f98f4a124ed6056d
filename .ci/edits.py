"""Each claim of the must-fail edits is refused by a fact of its own, and docs/MUST-FAIL.md lists it once, and no other.

    python3 .ci/edits.py [CRATE...]    the edits of these crates, or of all

An .edit file is a bundle of claims. Before the replacements of each stands a line

    # claim NAME: proofs/PATH.antt

with the proof file in which it must fail: proofs/F/Answers.antt for the function F, whether or not F needs that file, or a file of
lemmas. No two claims of a bundle name the same one: they would hide each other.

`rt ci` tells of an edit only that it is refused, and the first error. So each bundle is applied here to a copy of its crate outside the
repository, where `rt check` says all that is refused, over what checks kept: run `rt all check` before. RT_JOBS copies, or 4, are
checked at a time. A function is refused where an error of its proof says that a fact fails, or a note that what the code must have at a
place in the function is not proved. Exits with 1 and says which claim is at fault.
"""

import concurrent.futures
import os
import pathlib
import re
import shutil
import subprocess
import sys
import tempfile

ROOT = pathlib.Path(__file__).resolve().parent.parent
PARTS = "src", "specs", "proofs"
FRONT = re.compile(r"(?:#.*\n|\n)*?# claim ")
CLAIM = re.compile(r"^# claim (\w+): (proofs/\S+\.antt)$", re.MULTILINE)
ROW = re.compile(r"^\| (\w+) \| (\w+) \| (\w+) \|", re.MULTILINE)
OF_FUNCTION = re.compile(r"proofs/(.+)/(?:Answers|Invariants|Proof)\.antt")
LINE = re.compile(r"(\w+)[^:#]*:([^#]*)")

ERROR = re.compile(r"^(?:\./)?(proofs/[^:]+\.antt):\d+:\d+: error: (?:`([^`]+)`: )?(.*)$", re.MULTILINE)
NOTE = re.compile(r"^note: (?:\./)?(src/[^:]+\.rt):(\d+):\d+: it is not proved that (.*)$", re.MULTILINE)
IS_FALSE = "allow values at which this goal is false"
REFUSED = re.compile(r"^(?:fn|impl|struct|enum) (\S+): (?:not proved(?:;.*)?|no proof: expected .*)$", re.MULTILINE)
FUNCTION = re.compile(r"^[^/\n]*\bfn (\w+)", re.MULTILINE)

# What only follows from another error, or only says that a proof no longer fits the code.
NO_FACT = re.compile(r"was not admitted|is not admitted|that depends? on|has no (?:field )?`|can(?:not)? be named|not in scope"
                     r"|is expected here|impossible case|argument\(s\) written")


def is_fact(name, words):
    """The error says that a fact fails. A declaration `F_spec` only lists what is to be proved of the function F."""
    return not re.search(r"[-_]spec$", name) and not NO_FACT.search(words)


def applied(edit, read):
    """The texts that the edit makes, by their paths in the crate."""
    texts, path, old = {}, None, None
    for line in edit.split("\n"):
        key, _, text = line.partition(" ")
        if key == "file:":
            path = text.strip()
        elif key == "old:":
            old = text
        elif key == "new:":
            was = texts[path] if path in texts else read(path)
            if was.count(old) != 1:
                raise ValueError(f"{path} has not once: {old}")
            texts[path] = was.replace(old, text)
    return texts


def crates():
    """The lines of crates.txt, and of each crate all that it is built on."""
    lines = {found[1]: (found[0], found[2].split()) for found in map(LINE.match, open(ROOT / "crates.txt", encoding="utf-8")) if found}
    below = {}

    def under(name):
        if name not in below:
            below[name] = set().union(*({one} | under(one) for one in lines[name][1] if one in lines))
        return below[name]

    return {name: (lines[name][0].strip(), under(name)) for name in lines}


def put(crate, to, kept):
    """A copy of the crate's texts, and of what checks kept by names of their own: a check writes such a file anew, and changes none."""
    def link(one, other):
        (os.link if one.endswith(".oantt") or "/rlib/" in one else shutil.copy2)(one, other)
        return other

    def copy(one, other):
        try:
            return link(one, other)
        except OSError:    # another disk
            return shutil.copy2(one, other)

    for part in PARTS:
        if (crate / part).is_dir():
            shutil.copytree(crate / part, to / part)
    for part in kept:
        if (crate / "out" / part).is_dir():
            shutil.copytree(crate / "out" / part, to / "out" / part, copy_function=copy)


def said(name, texts, known):
    """What `rt check` says of the crate with these texts, and how it ends."""
    line, below = known[name]
    with tempfile.TemporaryDirectory(prefix="edits-") as folder:
        room = pathlib.Path(folder)
        (room / ".git").mkdir()    # here the repository ends
        (room / "crates.txt").write_text("".join(known[one][0] + "\n" for one in known if one in below or one == name), encoding="utf-8")
        for one in below:
            put(ROOT / "crates" / one, room / "crates" / one, ["rlib"])
        crate = room / "crates" / name
        put(ROOT / "crates" / name, crate, ["incremental"])
        for path, text in texts.items():
            (crate / path).write_text(text, encoding="utf-8")
        done = subprocess.run(["rt", "check", "--jobs", "1"], cwd=crate, stdin=subprocess.DEVNULL, stdout=subprocess.PIPE,
                              stderr=subprocess.STDOUT, encoding="utf-8", errors="replace", check=False)
    return done.stdout, done.returncode


def at_line(text, number):
    """The function of a line, by the last `fn` before or on it."""
    names = [found[1] for found in FUNCTION.finditer(text) if text.count("\n", 0, found.start()) < number]
    return names[-1] if names else None


def failing(log, read):
    """The proof files in which a fact fails; and the functions, by their last names, of which the code at some place is not proved.

    Where a function's proof names goals that the code no longer has, those that it has in their place are no facts, but for a false one.
    """
    errors = ERROR.findall(log)
    unfit = {path.split("/")[-2] for path, name, words in errors if not is_fact(name, words)}
    notes = [(at_line(read(path), int(number)), words) for path, number, words in NOTE.findall(log)]
    return ({path for path, name, words in errors if is_fact(name, words)},
            {name for name, words in notes if name not in unfit or IS_FALSE in words})


def is_refused(path, files, functions, refused):
    """A fact of the claim's own fails: in its file of lemmas, or of its function, which is then not proved."""
    found = OF_FUNCTION.fullmatch(path)
    if not found:
        return path in files
    own = found[1].split("/")
    fails = any(file.rpartition("/")[0] == f"proofs/{found[1]}" for file in files) or own[-1] in functions
    return fails and (own[-1].startswith("+") or any(name.split("::")[1:] == own for name in refused))


def look_at(edit, known):
    """What speaks against the claims of a bundle, a line each."""
    crate, bundle = edit.parent.parent.name, edit.stem
    text = edit.read_text(encoding="utf-8")
    claims = CLAIM.findall(text)

    def read(path):
        return (edit.parent.parent / path).read_text(encoding="utf-8")

    if not claims or not FRONT.match(text):
        return [f"{crate}/{bundle}: it does not begin with a claim"]
    places = [OF_FUNCTION.sub(r"proofs/\1/", path) for _, path in claims]
    found = [f"{crate}/{bundle}: two claims name {path}" for path in sorted(set(places)) if places.count(path) > 1]
    try:
        texts = applied(text, read)
    except (OSError, ValueError) as error:
        return found + [f"{crate}/{bundle}: {error}"]
    log, status = said(crate, texts, known)
    if status == 0:
        return found + [f"{crate}/{bundle}: it is proved"]
    if status != 1 or "\nlogic=not-proved" not in log:
        return found + [f"{crate}/{bundle}: its check gave no verdict and ended with status {status}: {log[-400:]}"]
    files, functions = failing(log, lambda path: texts[path] if path in texts else read(path))
    refused = set(REFUSED.findall(log))
    if "--log" in sys.argv:
        print(f"== {crate}/{bundle}\n{log}")
    return found + [f"{crate}/{bundle}: {name}: no fact fails in {path}" for name, path in claims
                    if not is_refused(path, files, functions, refused)]


def listed(edits):
    """Where the claims of all crates are not the lines of docs/MUST-FAIL.md."""
    found = [(edit.parent.parent.name, edit.stem, name) for edit in edits for name, _ in CLAIM.findall(edit.read_text(encoding="utf-8"))]
    rows = ROW.findall((ROOT / "docs" / "MUST-FAIL.md").read_text(encoding="utf-8"))[1:]
    for row in sorted(set(found) | set(rows)):
        if found.count(row) != 1 or rows.count(row) != 1:
            yield "%s/%s: %s: %d claims, %d lines in docs/MUST-FAIL.md" % (*row, found.count(row), rows.count(row))


def main(names):
    edits = sorted((ROOT / "crates").glob("*/must-fail/*.edit"))
    wrong, known = list(listed(edits)), crates()
    chosen = [edit for edit in edits if not names or edit.parent.parent.name in names]
    jobs = int(os.environ.get("RT_JOBS") or min(4, len(os.sched_getaffinity(0))))
    with concurrent.futures.ThreadPoolExecutor(jobs) as pool:
        for lines in pool.map(lambda edit: look_at(edit, known), chosen):
            wrong += lines
    for line in wrong:
        print(line)
    claims = sum(len(CLAIM.findall(edit.read_text(encoding="utf-8"))) for edit in chosen)
    print(f"{len(chosen)} bundles with {claims} claims looked at")
    return 1 if wrong else 0


if __name__ == "__main__":
    sys.exit(main([word for word in sys.argv[1:] if word != "--log"]))
