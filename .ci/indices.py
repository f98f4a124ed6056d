"""Document 02, [7]: no function but index_of forms an index from a layer.

    python3 .ci/indices.py [FOLDER]    the crates of FOLDER, or of this repository

An index is f×Q² + p×Q + r, so whoever forms one multiplies. In the code of crates/*/src each product of two values has to
be one of PLACES, or 2 * (q * q), the number of triples, or stand as (q * q) behind `/`, where an index is taken apart; so
has each further use of a name that is let be q * q. A product with a number or a constant forms no index. What it cannot
see is an index of sums alone, as half of 2Q² that is added under a test. It says which line is another, or which place is
gone, and exits with 1.
"""

import pathlib
import re
import sys

# Each place where values are multiplied otherwise, and why it forms no index from a layer.
PLACES = {
    ("indices/src/lib.rt", "f * (q * q) + p * q + r"): "index_of itself",
    ("certificate_check/src/scan.rt", "return plan.left_base + usize::from(targets[plan.left_from + k]) * q;"): "from a base on: no layer enters",
    ("caller_rows/src/level.rt", "low += (k + 1) * below[i];"): "counts states",
    ("caller_rows/src/widths.rt", "(usize::from(k) + 1) * usize::from(w)"): "counts states",
    ("certificate_check/src/columns.rt", "let row = plans::layer_after(m, f, y) * q + a;"): "the number of a row of Q bits",
    ("certificate_check/src/columns.rt", "let base = row * q;"): "where the row of that number begins",
    ("certificate_check/src/columns.rt", "w = w & bits::wide_window(bytes, base + u * q);"): "from a base on",
    ("chart/src/rows.rt", "(p * m + j) * m + i"): "the entry of a chart: no layer enters",
    ("counts/src/lib.rt", "let whole = (home * m + i) * m;"): "entries of a chart",
    ("counts/src/lib.rt", "let rest = (after * m + j) * m;"): "entries of a chart",
    ("explore/src/blocks.rt", "if limit <= base + usize::from(row[k]) * stride {"): "from a base on",
    ("explore/src/blocks.rt", "let flag = flags + (base + usize::from(row[from]) * stride);"): "from a base on",
    ("explore/src/push.rt", "end = push(queue, parents, q, end, place, base + u * stride);"): "from a base on",
    ("plans/src/lib.rt", "i * inverse / 4294967296"): "takes an index apart",
    ("plans/src/lib.rt", "i - row * q"): "takes an index apart",
    ("plans/src/lib.rt", "let left = row - layer * q;"): "takes an index apart",
    ("plans/src/sides.rt", "left.span * right.span"): "a number of pairs",
    ("search/src/work.rt", "let square = q * q;"): "half the number of triples",
    ("search/src/work.rt", "clear(parents, square + 1);"): "how many entries hold the marks",
    ("search/src/work.rt", "let n = 2 * square;"): "the number of triples",
    ("sentence_trees/src/lib.rt", "let used = states * m * m;"): "a number of entries",
    ("sentence_trees/src/lib.rt", "let cells = PLACES * PLACES * states;"): "a number of entries",
    ("sentence_trees/src/lib.rt", "if work.len() < PLACES * PLACES * g.states {"): "a number of entries",
    ("sentence_trees/src/lib.rt", "return TreesRoom::Entries(PLACES * PLACES * checked.grammar.states);"): "a number of entries",
    ("witness_check/src/lib.rt", "let square = q * q;"): "by which an index is taken apart",
    ("witness_check/src/lib.rt", "layer: i / square,"): "takes an index apart",
}
NO_CODE = re.compile(r"//[^\n]*|^ghost use [^\n]*|^(?:pub )?const [^;]*;", re.MULTILINE)
CLAUSE = re.compile(r"\b(?:(?:requires|ensures)\b[^{\n]*|ghost [^{;\n]*)\{")
PLAIN = re.compile(r"\b2 \* \(q \* q\)|/ \(q \* q\)")
# No value stands before a `*` that reads what a reference points to.
PRODUCT = re.compile(r"(\S*[\w)\]])(?<!\bmut)(?<!\bif)(?<!\bin)(?<!\bmatch)(?<!\breturn)\s*\*=?\s*(?=(\S+))")
CONSTANT = r"(?:\d\w*|(?:\w+::)*[A-Z][A-Z_0-9]*)"


def has_constant(code, product):
    """One factor is a number or a constant, as a whole."""
    alone = not re.search(r"[*/%]\s*$", code[:product.start()])
    return alone and re.search(rf"(?:^|[^\w)\]]){CONSTANT}$", product[1]) or re.match(rf"{CONSTANT}\b", product[2])


def blank(part):
    """As many lines of nothing."""
    return re.sub(r"[^\n]", " ", part)


def bare(text):
    """The code alone: no comments, constants and clauses, a clause up to the bracket that closes it."""
    code = NO_CODE.sub(lambda part: blank(part[0]), text)
    clause = CLAUSE.search(code)
    while clause:
        end, depth = clause.end(), 1
        while depth:
            depth += (code[end] == "{") - (code[end] == "}")
            end += 1
        code = code[:clause.start()] + blank(code[clause.start():end]) + code[end:]
        clause = CLAUSE.search(code, end)
    return code


def lines(text):
    """The lines of the code that multiply two values, or use a name of q * q; with their numbers."""
    code = bare(text)
    squares = "|".join(re.findall(r"\blet (?:mut )?(\w+)[^=;]*=\s*q\s*\*\s*q\s*;", code))
    code = PLAIN.sub(lambda part: "x" * len(part[0]), code)
    found = {code.count("\n", 0, one.end(1)) for one in PRODUCT.finditer(code) if not has_constant(code, one)}
    for number, line in enumerate(code.split("\n")):
        if number in found or squares and re.search(rf"\b(?:{squares})\b", line):
            yield number + 1, text.split("\n")[number].strip()


def main(folder):
    wrong, left = [], dict(PLACES)
    for path in sorted(folder.glob("*/src/**/*.rt")):
        name = path.relative_to(folder).as_posix()
        for number, line in lines(path.read_text(encoding="utf-8")):
            if (name, line) not in PLACES:
                wrong.append(f"crates/{name}:{number}: a product that is not in .ci/indices.py: {line}")
            left.pop((name, line), None)
    wrong += [f"crates/{name}: .ci/indices.py has a line that is gone: {line}" for name, line in left]
    for line in wrong:
        print(line)
    return 1 if wrong else 0


if __name__ == "__main__":
    sys.exit(main(pathlib.Path(sys.argv[1] if len(sys.argv) > 1 else pathlib.Path(__file__).parent.parent / "crates")))
