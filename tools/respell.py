#!/usr/bin/env python3
"""Respells the repository's own definitions, lemmas, fields and constructors as today's Rattle spells names: words in snake case, a dash only
between two names. Run once, at the top, behind port.py: python3 tools/respell.py [--map]. Functions of src/, exported C names and strings keep theirs.

A word turns everywhere in specs/ and proofs/ and in the clauses and `ghost use` items of src/. Behind a dot it turns only where it is a field or
stands behind a module's alias, since Rattle's own steps stand there too. A lemma that would have a definition's name gets `_lem`.
--map prints old and new and writes nothing.
"""
import collections, os, re, sys

CH = "A-Za-z0-9_'\\-₀-₉"
WORD = re.compile(r"[A-Za-z][%s]*" % CH)
TOP = "crates"


def files(ext):
    for r, d, fs in os.walk(TOP):
        d[:] = sorted(x for x in d if x != "out")
        for f in sorted(fs):
            if f.endswith(ext):
                yield os.path.join(r, f)


def camel(w):
    return re.fullmatch(r"[a-z][%s]*" % CH, w) and re.search(r"[a-z0-9][A-Z]", w)


def snake(w):
    # lowerCamel parts only: a part that begins with a capital is a type's name and stays
    return "-".join(
        "_".join(re.sub(r"(?<=[a-z0-9])([A-Z])", lambda m: "_" + m[1].lower(), p) if p[:1].islower() else p for p in q.split("_"))
        for q in w.split("-")
    )


def declared():
    """name -> kinds: 'def' (abbrev, unfoldable), 'lemma', 'field', 'con', 'type'; and the names that libraries give."""
    kinds, given = collections.defaultdict(set), set()
    for p in files(".antt"):
        t = open(p, encoding="utf-8").read()
        walk = p.endswith("/Proof.antt")
        block = None
        for line in t.split("\n"):
            code = line.split(" -- ")[0]
            if code.lstrip().startswith("--") or not code.strip():
                continue
            m = re.match(r"\s*(?:pub )?use ([^\s{]+?)(?:\.\{(.*)\})?( as .*)?;?$", code)
            if m:
                if not m[1].startswith("Rattle.") or m[1].startswith("Rattle.std."):
                    for x in (m[2] or "").split(","):
                        given.add(x.strip().split(" as ")[-1])
                continue
            m = re.match(r"(\s*)((?:pub |abbrev |unfoldable )*)(record|data) ([^\s:(]+)", code)
            if m:
                kinds[m[4]].add("type")
                block = (m[3], len(m[1]))
                continue
            m = re.match(r"(\s*)((?:pub |abbrev |unfoldable )*)([^\s:(){}|=]+)((?: [^\s:(){}|=]+)*) :(?: |$)", code)
            if m and not re.match(r"\s*(let|λ|in|module)\b", code):
                ind, head, names = len(m[1]), m[2], [m[3]] + m[4].split()
                if block and ind <= block[1]:
                    block = None
                for n in names:
                    if not WORD.fullmatch(n):
                        continue
                    if "statement M" in code:
                        continue
                    if block:
                        kinds[n].add("field" if block[0] == "record" else "con")
                    elif "tie." in code and walk and ("tie.Need" in code or "tie.invariant" in code or "tie.decreases" in code):
                        kinds[n].add("goal")
                    elif n[0].isupper():
                        kinds[n].add("type")
                    elif "abbrev" in head or "unfoldable" in head:
                        kinds[n].add("def")
                    else:
                        kinds[n].add("lemma")
            elif block and code and not code[0].isspace():
                block = None
    return kinds, given


def table(kinds, given):
    defs = {snake(n) for n, k in kinds.items() if "def" in k or "con" in k}
    defs |= {n for n in given if WORD.fullmatch(n) and "-" not in n}
    types = {n for n, k in kinds.items() if "type" in k}

    def dashes(w):
        parts = w.split("-")
        out = parts[0]
        for i in range(1, len(parts)):
            left, right = "_".join(parts[:i]), parts[i]
            lasts = {"_".join(parts[j:i]) for j in range(i)}
            firsts = {"_".join(parts[i:j]) for j in range(i + 1, len(parts) + 1)}
            both = (lasts & (defs | types)) and (firsts & (defs | types)) and left
            out += ("-" if both else "_") + right
        return out

    new = {}
    for n, k in kinds.items():
        if n in given or n[0].isupper() and "-" not in n or k == {"goal"}:
            continue
        if "-" not in n and not camel(n):
            continue
        w = snake(n)
        new[n] = w if "def" in k else dashes(w)
    # names that fall together: a lemma's gets _lem, a field may share
    rank = lambda n: 0 if kinds[n] & {"def", "con"} else 1 if "lemma" in kinds[n] else 2
    held = {n: n for n in given}
    for n in kinds:
        if n not in new and rank(n) < 2 and n not in given:
            held.setdefault(n, n)
    for n in sorted(new, key=lambda n: (rank(n), n)):
        w = new[n]
        if rank(n) == 2:
            continue
        if w in held and held[w] != n:
            other = held[w]
            if rank(n) == 0 and other not in given and rank(other) == 1:
                new[other] = w + "_lem"
                held[w + "_lem"] = other
            else:
                w += "_lem"
                while w in held:
                    w += "'"
                new[n] = w
        held[w] = n
    return {n: w for n, w in new.items() if n != w}


def turn(text, new, fields, aliases, quiet=True):
    def rep(m):
        w = m[0]
        i = m.start()
        if text[i - 1 : i] == ".":
            j = i - 1
            k = j
            while k > 0 and re.match("[%s]" % CH, text[k - 1]):
                k -= 1
            before = text[k:j]
            if before in aliases or text[:i].endswith("specs.declared."):
                return new.get(w, w)
            return new.get(w, w) if w in fields else w
        return new.get(w, w)

    return WORD.sub(rep, text)


CLAUSE = re.compile(r"(?:requires|ensures)\s*\*?\s*(?:\w+\s*)?\{|ghost\s*(?:\w+\s*(?::\s*)?|=\s*)?\{")


def clauses(text):
    """Spans of clauses and ghost use items."""
    out = [(m.start(), m.end()) for m in re.finditer(r"ghost\s+use\b[^;]*;", text)]
    for m in CLAUSE.finditer(text):
        d, i = 0, m.end() - 1
        while i < len(text):
            d += (text[i] == "{") - (text[i] == "}")
            i += 1
            if not d:
                break
        out.append((m.start(), i))
    return sorted(out)


def main(argv):
    kinds, given = declared()
    new = table(kinds, given)
    fields = {n for n in new if "field" in kinds[n]}
    if "--map" in argv:
        for n, w in sorted(new.items()):
            print(n, w, ",".join(sorted(kinds[n])), sep="\t")
        return
    for p in files(".antt"):
        t = open(p, encoding="utf-8").read()
        aliases = set(re.findall(r"^use .* as (\S+?);?$", t, re.M)) - {"tie", "goal"}
        u = turn(t, new, fields, aliases)
        if u != t:
            open(p, "w", encoding="utf-8").write(u)
    for p in files(".rt"):
        t = open(p, encoding="utf-8").read()
        out, at = "", 0
        for a, b in clauses(t):
            if a < at:
                continue
            out += t[at:a] + turn(t[a:b], new, fields, set())
            at = b
        out += t[at:]
        if out != t:
            open(p, "w", encoding="utf-8").write(out)
    # a file of specs/ may not be called Contracts
    for p in [x for x in files(".antt") if os.path.basename(x) == "Contracts.antt"]:
        q = p[: -len("Contracts.antt")] + "Clauses.antt"
        os.rename(p, q)
        lib = os.path.join(os.path.dirname(p), "Lib.antt")
        t = open(lib).read()
        open(lib, "w").write(re.sub(r"\bmod Contracts\b", "mod Clauses", t))
    for ext in (".antt", ".rt"):
        for p in files(ext):
            t = open(p, encoding="utf-8").read()
            u = t.replace("specs.Contracts", "specs.Clauses")
            if u != t:
                open(p, "w", encoding="utf-8").write(u)


main(sys.argv[1:])
