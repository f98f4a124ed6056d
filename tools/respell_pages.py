#!/usr/bin/env python3
"""Respells the definitions and lemmas that the pages name, by a table of old and new names: python3 tools/respell_pages.py TABLE.
TABLE is what `tools/respell.py --map` printed before the names were turned. A code span turns that is such a name alone; docs/CHANGES.md,
which is history, and docs/PORT.md stay."""
import re
import subprocess
import sys

new = dict(line.rstrip("\n").split("\t")[:2] for line in open(sys.argv[1], encoding="utf-8"))
for page in subprocess.run(["git", "ls-files", "*.md"], stdout=subprocess.PIPE, text=True).stdout.split():
    if page in ("docs/CHANGES.md", "docs/PORT.md"):
        continue
    text = open(page, encoding="utf-8").read()
    turned = re.sub(r"`([^`\s]+)`", lambda m: "`" + new.get(m[1], m[1]) + "`", text).replace("/Contracts.antt", "/Clauses.antt")
    if turned != text:
        open(page, "w", encoding="utf-8").write(turned)
        print(page)
