"""The gate's times in seconds: summary.py TIMES PROVED TOTAL. TIMES has each line of `rt ci`, behind the second at which it was printed.

rt ci took PROVED of the TOTAL. It tells how much it did in this run and when a proof has ended, and not how long each took, for many run
side by side: the last ones to end are those that the others wait for.
"""

import re
import sys

CRATE = re.compile(r"^(\d+) rt: (\S+) proved$")
KEPT = re.compile(r"^\d+ rt: (\S+) is kept: ")
EDIT = re.compile(r"^\d+ rt: must-fail (\S+): refused")
DONE = re.compile(r"^\d+ rt: ok;.*; ([^;]+; [^;]*kept from earlier runs[^;]*|every proof [^;]*)$")
LAST = 10


def main(times, proved, total):
    with open(times, encoding="utf-8", errors="replace") as file:
        lines = file.read().splitlines()
    ended = sorted(((int(found[1]), found[2]) for found in map(CRATE.match, lines) if found), reverse=True)
    kept, edits = (sum(bool(form.match(line)) for line in lines) for form in (KEPT, EDIT))
    print(f"the gate took {total} s, {proved} s of it for rt ci: proofs, must-fail edits and the program")
    print(f"{len(ended)} crates were proved in this run and {kept} earlier on this machine; {edits} must-fail edits were refused")
    for done in filter(None, map(DONE.match, lines)):
        print(done[1])
    if ended:
        print("the last proofs to end: " + ", ".join(f"{name} after {seconds} s" for seconds, name in ended[:LAST]))


if __name__ == "__main__":
    main(*sys.argv[1:])
