"""A function's body is one path: sums and products, assigned one after the other, and then the return.

    (cd crates/CRATE && rt check --generated FOLDER --start FUNCTION)
    python3 .ci/no_branch.py FOLDER/Rattle-CRATE-proofs/FUNCTION/Code/Mir.antt

The file is the code that is proved and compiled. Anything else in it, so a branch, a loop or a call, exits with 1 and is said; so does a
file that is not there, or that has no body.
"""

import re
import sys

# What such a body is made of, and its file.
PLAIN = {"Local", "local", "ty_int", "w64", "value_local", "Body", "seq", "assign", "place", "copy", "int", "op2", "add", "mul", "unsigned",
         "return", "Fn"}
HEAD = "use mathlib.Core.List\nuse mir.Syntax\n"
ONES = re.compile(r"[\w-]+")


def others(text):
    """What is neither plain, nor a number, nor a name that the file gives."""
    code = re.sub(r"^(--|use )[^\n]*", "", text, flags=re.MULTILINE)
    given = set(re.findall(r"^abbrev pub (\S+) :", code, re.MULTILINE)) | {"abbrev", "pub", "record"}
    given |= set(re.findall(r"^  (\w+) =", code, re.MULTILINE))
    code = re.sub(r"\bList\.(◌∷◌|\[\]|List)", " ", code)
    words = set(ONES.findall(re.sub(r"\bSyntax\.\w+", " ", code))) - given
    return sorted(set(re.findall(r"\bSyntax\.(\w+)", code)) - PLAIN) + sorted(word for word in words if not word.isdecimal())


if __name__ == "__main__":
    try:
        with open(sys.argv[1], encoding="utf-8") as file:
            mir = file.read()
    except OSError:
        mir = ""
    other = others(mir)
    whole = HEAD in mir and re.search(r"^function = record \{\n(?:  [^\n]*\n)*  body = t-1;\n\}$", mir, re.MULTILINE)
    if not whole:
        print(f"{sys.argv[1]} is not there, or has no body")
    elif other:
        print(f"{sys.argv[1]} is not one path: {', '.join(other)}")
    sys.exit(0 if whole and not other else 1)
