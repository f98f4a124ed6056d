"""Runs every command of the documents that users follow, and compares what they show.

    documents.py DOCUMENT...

A block fenced with ```sh has commands. They are run in order by one shell, in a
folder that shows the repository and keeps what they write. A block fenced with
```text behind it is what they print, standard error and standard output. `rt` is
stood in for: the gate has run it, and the stand-in looks whether what it builds
is there, and runs the program. cargo is run in the repository itself, so that it builds nothing twice. A
command that .ci/run has, word for word up to ` -- `, is run there and not again.
"""

import os
import shlex
import shutil
import subprocess
import sys
import tempfile
from typing import List, NamedTuple, Optional

ROOT = os.path.dirname(os.path.dirname(os.path.abspath(__file__)))
RT = """#!/bin/sh
case "$* ${PWD##*/crates/}" in
"run ambig") exec out/ambig ;;
"lib ambiguity_c") test -f out/libambiguity_c.a ;;
*) echo "the gate does not run: rt $* in $PWD" >&2; exit 3 ;;
esac
"""
# What the tools end with, but for bad use.
STATUSES = "0\n", "1\n", "3\n", "4\n"
CARGO = """#!/bin/sh
cd %s && exec %s "$@"
"""


class Block(NamedTuple):
    line: int
    commands: str
    printed: Optional[str]


def fenced(document: str):
    """Kind, first line and content of each fenced block."""
    kind, content, start = None, [], 0
    for number, line in enumerate(document.split("\n"), 1):
        if line.startswith("```"):
            if kind is not None:
                yield kind, start, "".join(part + "\n" for part in content)
                kind, content = None, []
            else:
                kind, start = line[3:], number
        elif kind is not None:
            content.append(line)
    assert kind is None, "a fence is not closed"


def blocks(document: str) -> List[Block]:
    """The commands, each with what is shown behind them."""
    found: List[Block] = []
    before = None
    for kind, line, content in fenced(document):
        if kind == "sh":
            found.append(Block(line, content, None))
        elif kind == "text" and before == "sh":
            found[-1] = found[-1]._replace(printed=content)
        before = kind
    return found


def run_elsewhere(commands: str, gate: str) -> bool:
    """Whether every line is a command of the gate, which may say there what a test prints, or the gate itself."""
    run = [line.split(" -- ")[0] for line in gate.split("\n")]
    return all(line in run or line == "bash .ci/run" for line in commands.split("\n") if line)


def script(found: List[Block], gate: str, out: str) -> str:
    """A shell script that runs the blocks and keeps of each what it prints, and its status."""
    parts = []
    for place, block in enumerate(found):
        if not run_elsewhere(block.commands, gate):
            parts.append("{ :\n%s} >'%s/%d' 2>&1\necho $? >'%s/%d.status'\n" % (block.commands, out, place, out, place))
    return "".join(parts)


def contents(path: str) -> str:
    with open(path, encoding="utf-8") as file:
        return file.read()


def put_program(path: str, text: str) -> None:
    with open(path, "w", encoding="utf-8") as file:
        file.write(text)
    os.chmod(path, 0o755)


def faults(name: str) -> List[str]:
    """What a document says otherwise than it is."""
    found, gate = blocks(contents(os.path.join(ROOT, name))), contents(os.path.join(ROOT, ".ci/run"))
    wrong = []
    with tempfile.TemporaryDirectory() as folder:
        shown, out, tools = (os.path.join(folder, part) for part in ("shown", "out", "tools"))
        for part in shown, out, tools:
            os.mkdir(part)
        for entry in os.listdir(ROOT):
            os.symlink(os.path.join(ROOT, entry), os.path.join(shown, entry))
        put_program(os.path.join(tools, "rt"), RT)
        put_program(os.path.join(tools, "cargo"), CARGO % (shlex.quote(ROOT), shlex.quote(shutil.which("cargo") or "cargo")))
        environment = dict(os.environ, PATH=tools + os.pathsep + os.environ["PATH"])
        subprocess.run(["bash"], input=script(found, gate, out), cwd=shown, env=environment, text=True, check=False)
        for place, block in enumerate(found):
            if run_elsewhere(block.commands, gate):
                continue
            printed, status = (contents(os.path.join(out, str(place) + ending)) for ending in ("", ".status"))
            if block.printed is None and status != "0\n" or status not in STATUSES:
                wrong.append("%s:%d: ends with status %s%s" % (name, block.line, status, printed))
            elif block.printed is not None and printed != block.printed:
                wrong.append("%s:%d: prints otherwise:\n%s" % (name, block.line, printed))
    if not found:
        wrong.append("%s: no command is found" % name)
    print("%s: %d blocks of commands" % (name, len(found)))
    return wrong


def main(names: List[str]) -> int:
    wrong = [fault for name in names for fault in faults(name)]
    print("\n".join(wrong))
    return 1 if wrong else 0


if __name__ == "__main__":
    sys.exit(main(sys.argv[1:]))
