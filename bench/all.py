"""One command, one table: every entry of the library beside plain C, in one run.

    python3 bench/all.py        builds the archive, runs the other scripts one after the other, prints the table at the end

Options: --seconds N for each grammar, text or row, in place of each script's own; --archive FILE, a static library with the library's
functions, in place of the one that rt lib makes; --without SCRIPT.., scripts that are left out. The compiler is $CC or gcc, with
-O3. The table is written to target/bench/table.md too. README.md beside this file says what the numbers mean.
"""

import argparse
import os
import sys

import callers
import drafts
import joins
import results
import rooms
import search
import texts
import trees

SCRIPTS = search, rooms, callers, texts, joins, trees, drafts
GROWTH = ("Growth is the power of Q with which the library's time grows, for texts of their bytes, for trees of the row's terminals: the"
          " median over families of one shape in three sizes or more, and the largest.")


def heading(options):
    length = f"`--seconds {options.seconds}`" if options.seconds else "each script's own times"
    return (f"One run of `python3 bench/all.py` with {length}; load {os.getloadavg()[0]:.1f} on {os.cpu_count()} processors at its end."
            " A ratio is the time of plain C over that of the library: above 1 the library is faster.")


def main():
    parser = argparse.ArgumentParser(description=__doc__, formatter_class=argparse.RawDescriptionHelpFormatter)
    parser.add_argument("--seconds", type=float)
    parser.add_argument("--archive")
    parser.add_argument("--without", nargs="+", default=[], choices=[script.__name__ for script in SCRIPTS])
    options = parser.parse_args()
    options.stand_in = False
    words = ["--archive", *map(str, search.archive(options))] + (["--seconds", str(options.seconds)] if options.seconds else [])
    for script in SCRIPTS:
        if script.__name__ in options.without:
            continue
        print(f"\n{script.__name__}.py", flush=True)
        sys.argv[1:] = words
        if script.main() != 0:
            return 1
    rows, said = results.table(), heading(options)
    written = [said, "", *results.markdown(rows), "", GROWTH]
    (search.WORK / "table.md").write_text("".join(line + "\n" for line in written), encoding="ascii")
    print("", said, "", *results.printed(rows), "", GROWTH, sep="\n")
    return 0


if __name__ == "__main__":
    sys.exit(main())
