"""docs/ARCHITECTURE.md beside crates.txt: its picture and its list of the crates are made from that file.

    python3 .ci/architecture.py            says what differs, and exits with 1
    python3 .ci/architecture.py --write    writes the made parts anew

crates.txt has each crate behind those that it is built on. A function that the page names as `CRATE::FUNCTION` is to be one of that
crate, and a file that the page or CONTRIBUTING.md names is to be there.
"""

import pathlib
import re
import sys
import textwrap

ROOT = pathlib.Path(__file__).resolve().parent.parent
LINE = re.compile(r"^(?:# ---- (.+)|(\w+)(?: [\w=]+)*:([^#\n]*)(?:# (.+))?)$", re.MULTILINE)
FILE = re.compile(r"(?<![\w/.])(?:\.ci|bench|bindings|corpus|crates|docs|second)/[\w./-]*\w")


def text(path):
    return (ROOT / path).read_text(encoding="utf-8")


def crates():
    """Of each crate its section, the crates of the repository that it is built on, and its words; in the order of the file."""
    lines, found, section = LINE.findall(text("crates.txt")), {}, ""
    names = {name for _, name, _, _ in lines}
    for heading, name, below, words in lines:
        section = heading or section
        if name:
            found[name] = section, [crate for crate in below.split() if crate in names], words
    return found


def picture(found):
    """The sections, each with chains of crates: one stands behind those that it is built on, but for what follows from others."""
    under, chains = {}, {}
    for name, (section, below, _) in found.items():
        under[name] = set(below).union(*(under[crate] for crate in below))
        bare = [crate for crate in found if crate in below and not any(crate in under[one] for one in below)]
        ways = chains.setdefault(section, [])
        way = next((way for way in ways if [way[-1]] == bare), None)
        way.append(name) if way else ways.append([", ".join(bare), name] if bare else [name])
    for section, ways in chains.items():
        words = ";  ".join(" <- ".join(way).replace(" ", "\0") for way in ways)
        yield section
        yield textwrap.fill(words, 104, initial_indent=" " * 4, subsequent_indent=" " * 4,
                            break_long_words=False).replace("\0", " ")


def made(page, part, lines):
    """The page with the lines of a part between its marks."""
    marks = re.compile(rf"(<!-- made: {part} -->\n).*?(<!-- end -->)", re.DOTALL)
    anew, times = marks.subn(lambda old: "".join([old[1], *(line + "\n" for line in lines), old[2]]), page)
    return anew if times == 1 else sys.exit(f"docs/ARCHITECTURE.md: the marks of {part} are not there once")


def missing(page):
    """What is named and is not there."""
    for crate, function in re.findall(r"`(\w+)::(\w+)`", page):
        files = (ROOT / "crates" / crate / "src").glob("*.rt")
        if not any(re.search(rf"\bfn {function}\b", file.read_text(encoding="utf-8")) for file in files):
            yield f"docs/ARCHITECTURE.md: crate {crate} has no function {function}"
    for name, words in ("docs/ARCHITECTURE.md", page), ("CONTRIBUTING.md", text("CONTRIBUTING.md")):
        for path in sorted(set(FILE.findall(words))):
            if "NAME" not in path and not (ROOT / path).exists():
                yield f"{name}: there is no {path}"


def main(words):
    found, page = crates(), text("docs/ARCHITECTURE.md")
    order = list(found)
    wrong = [f"crates.txt: {name} stands before {crate}, on which it is built"
             for name, (_, below, _) in found.items() for crate in below if order.index(name) <= order.index(crate)]
    if not wrong:
        rows = [f"| {section} | `{name}` | {what} |" for name, (section, _, what) in found.items()]
        anew = made(page, "picture", ["```text", *picture(found), "```"])
        anew = made(anew, "crates", ["| floor | crate | has |", "|---|---|---|", *rows])
        wrong = list(missing(anew))
        if words == ["--write"]:
            (ROOT / "docs/ARCHITECTURE.md").write_text(anew, encoding="utf-8")
        elif anew != page:
            wrong.append("docs/ARCHITECTURE.md differs from crates.txt: run python3 .ci/architecture.py --write")
    for line in wrong:
        print(line)
    return 1 if wrong else 0


if __name__ == "__main__":
    sys.exit(main(sys.argv[1:]))
