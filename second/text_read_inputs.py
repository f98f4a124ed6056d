"""The inputs of the reader's cases, in groups; they depend on the seed alone."""

from typing import Iterator, List, Sequence, Tuple

from case_files import Group, Rng, cases_of
from dead_grammars import table_of
from named_grammars import (
    MAX_BYTES, MAX_LENT, Named, ample_lent, any_lent, counted_names, exact_lent,
    figures_named, full_named, join_lines, large_named, lines_of, long_names,
    longest_named, random_name, random_names, rule_line, small_named, text_of, with_names,
)
from random_tables import Rule, random_rule, random_rules, some_rules
from sentence_grammars import (
    large, large_sentenceless, named_table, nearly_sentenceless, sentenceless,
)
from spelling import (
    APART, NEXT_TO_LETTERS, apart, in_another_case, lettered, lettered_names, places_apart,
    respelled, respelled_rule, ways_to_respell,
)
from tables import MAX_LENGTH, MAX_NONTERMINALS, MAX_RULES, MAX_STATES, MAX_TERMINALS, START
from text import MAX_NAME, MAX_TEXT, Lent

SEED = 2

Case = Tuple[bytes, Lent]
S = START

EXAMPLE = b"terminals=a\nnonterminals=S\nrule=S: a\n"     # document 01's own
NO_SYMBOL = b"terminals=\nnonterminals=S\nrule=S:\n"
NAMES = (b"terminals=a,b-1,Zz\nnonterminals=S,Expr,x9\nrule=S: a Expr\n"
         b"rule=Expr:\nrule=x9: b-1 Zz S S\nrule=S: x9\n")
LONG_NAMES = (b"terminals=abcdefghijklmno,PQRSTUVWXYZABCD\n"
              b"nonterminals=0123456789-----\n"
              b"rule=0123456789-----: abcdefghijklmno PQRSTUVWXYZABCD\n")
KEY_NAMES = (b"terminals=rule,terminals,0\nnonterminals=nonterminals,-\n"
             b"rule=nonterminals: rule terminals -\nrule=-:\nrule=-: 0\n")
BASES = [EXAMPLE, NO_SYMBOL, NAMES, LONG_NAMES, KEY_NAMES]
# Bytes that end or part something, or stand just outside letters and digits.
MARKS = b"\x00\t\n\r ,-./09:;=@AZ[_`az{\x7f\x80\xff"
FEW_MARKS = b"\n\r ,-:=aS"


# Building blocks.

def with_lent(rng: Rng, grammar: Named, texts: Sequence[bytes]) -> Iterator[Case]:
    """The texts, each with rows lent for this grammar or others."""
    for text in texts:
        yield text, any_lent(rng, grammar)


def at_ease(rng: Rng, texts: Sequence[bytes]) -> Iterator[Case]:
    """The texts with rows long enough; now and then with none at all."""
    for text in texts:
        yield text, Lent(0, 0, 0) if rng.randrange(10) == 0 else ample_lent(rng)


def put(lines: Sequence[bytes], place: int, new: Sequence[bytes]) -> List[bytes]:
    """The lines with `new` put in before line `place`, from 0."""
    return list(lines[:place]) + list(new) + list(lines[place:])


def change(lines: Sequence[bytes], place: int, new: bytes) -> List[bytes]:
    """The lines with line `place` replaced."""
    return list(lines[:place]) + [new] + list(lines[place + 1:])


def named_with_rules(rng: Rng) -> Named:
    """A small grammar with a terminal and a rule at least."""
    while True:
        grammar = small_named(rng)
        if grammar.t > 0 and grammar.rules:
            return grammar


def unused_name(rng: Rng, grammar: Named) -> bytes:
    """A good name that the grammar does not declare, in no case."""
    declared = {name.lower() for name in grammar.names}
    while True:
        name = random_name(rng, 1 + rng.randrange(MAX_NAME))
        if name.lower() not in declared:
            return name


# Good texts.

def figures(rng: Rng) -> Iterator[Case]:
    """Document 01's grammars, with rows of several lengths."""
    for grammar in figures_named():
        table, starts, lengths = exact_lent(grammar)
        for more in (0, 1, 300):
            yield text_of(grammar), Lent(table + more, starts + more, lengths + more)
        yield text_of(grammar), ample_lent(rng)
    for base in BASES:
        yield base, ample_lent(rng)


def good_small(rng: Rng) -> Iterator[Case]:
    for _ in range(1000):
        grammar = small_named(rng, rng.choice([2, 6, 12]))
        yield text_of(grammar), any_lent(rng, grammar)


def good_large(rng: Rng) -> Iterator[Case]:
    """Texts at the limits of symbols, rules, states and bytes."""
    for _ in range(50):
        grammar = full_named(rng)
        yield text_of(grammar), any_lent(rng, grammar)
    for _ in range(15):
        grammar = large_named(rng, MAX_RULES, MAX_STATES - rng.randrange(3))
        yield text_of(grammar), any_lent(rng, grammar)
        grammar = large_named(rng, some_rules(rng), MAX_STATES)
        yield text_of(grammar), any_lent(rng, grammar)
    for _ in range(4):
        grammar = longest_named(rng)
        yield text_of(grammar), any_lent(rng, grammar)
    t, end = MAX_TERMINALS, S + MAX_NONTERMINALS - 1
    for _ in range(12):
        last = [(end, (t, end)), (S, (1, end, t - 1, end)), (end, ())]
        grammar = with_names(rng, t, MAX_NONTERMINALS, last)
        yield text_of(grammar), any_lent(rng, grammar)


def lent_rows(rng: Rng) -> Iterator[Case]:
    """Rows exactly enough, longer, one short in each, and without entries."""
    changes = [(0, 0, 0), (1, 1, 1), (-1, 0, 0), (0, -1, 0), (0, 0, -1), (-1, 9, 9),
               (9, -1, 9), (9, 9, -1), (-1, -1, 0), (0, -1, -1), (-1, 0, -1),
               (-1, -1, -1), (900, 0, 0), (0, 900, 0), (0, 0, 900), (MAX_LENT,) * 3,
               (-MAX_LENT, 0, 0), (0, -MAX_LENT, 0), (0, 0, -MAX_LENT)]
    grammars = [small_named(rng) for _ in range(22)] + [full_named(rng) for _ in range(2)]
    grammars += [large_named(rng, MAX_RULES, MAX_STATES)]
    for grammar in grammars:
        for more in changes:
            sizes = (size + m for size, m in zip(exact_lent(grammar), more))
            yield text_of(grammar), Lent(*(min(MAX_LENT, max(0, size)) for size in sizes))


# Damaged texts.

def replaced_bytes(rng: Rng) -> Iterator[Case]:
    """Every byte of some texts replaced by several values."""
    for text, marks in ((EXAMPLE, MARKS), (NO_SYMBOL, FEW_MARKS), (NAMES, FEW_MARKS),
                        (LONG_NAMES, b"\n ,a\x80")):
        for place in range(len(text)):
            for mark in marks:
                changed = text[:place] + bytes([mark]) + text[place + 1:]
                yield from at_ease(rng, [changed])


def changed_bytes(rng: Rng) -> Iterator[Case]:
    """Every byte of some texts left out, doubled, or with one put in before it."""
    for text, marks in ((EXAMPLE, b"\n ,:=a"), (NAMES, b"\n ")):
        for place in range(len(text) + 1):
            head, tail = text[:place], text[place:]
            yield from at_ease(rng, [head + tail[1:], head + tail[:1] + tail])
            for mark in marks:
                yield from at_ease(rng, [head + bytes([mark]) + tail])


def cut_texts(rng: Rng) -> Iterator[Case]:
    """Texts cut at every length, long ones at some."""
    middling = text_of(with_names(rng, 6, 5, random_rules(rng, 6, 5, [2, 0, 3, 1, 12])))
    for text in BASES + [middling]:
        for end in range(len(text) + 1):
            yield from at_ease(rng, [text[:end]])
    for _ in range(3):
        text = text_of(longest_named(rng))
        for _ in range(12):
            yield from at_ease(rng, [text[:rng.randrange(len(text))]])


def no_lines(rng: Rng) -> Iterator[Case]:
    """The empty text, and texts that are only line ends."""
    for table in (0, 1, 3, 400):
        for starts in (0, 1, 300):
            for lengths in (0, 1, 300):
                yield b"", Lent(table, starts, lengths)
    for count in (1, 2, 3, 4, 100, 65536):
        yield from at_ease(rng, [b"\n" * count, b"\r" * count, b" " * count])


def damaged(rng: Rng) -> Iterator[Case]:
    """Good texts with one or two stretches of bytes changed."""
    for _ in range(900):
        grammar = small_named(rng)
        text = text_of(grammar)
        for _ in range(1 + rng.randrange(2)):
            text = damage(rng, text)
        yield text, any_lent(rng, grammar)


def damage(rng: Rng, text: bytes) -> bytes:
    """One byte or stretch of the text changed."""
    place = rng.randrange(len(text) + 1)
    head, tail = text[:place], text[place:]
    kind = rng.randrange(6)
    if kind == 0:
        return head + bytes([rng.choice(MARKS)]) + tail
    if kind == 1:
        return head + tail[1 + rng.randrange(3):]
    if kind == 2:
        return head + bytes([rng.choice(MARKS)]) + tail[1:]
    if kind == 3:
        return head + tail[:6] + tail
    if kind == 4:
        return head
    return head + bytes([rng.randrange(256)]) + tail[1:]


def noise(rng: Rng) -> Iterator[Case]:
    """Pieces of texts in any order, and plain random bytes."""
    pieces = [b"terminals=", b"nonterminals=", b"rule=", b"rule=S:", b"a", b"b", b"S",
              b"A", b",", b" ", b":", b"=", b"\n", b"\n", b" a", b" S", b",b",
              b"rule=S: a\n"]
    for _ in range(500):
        count = rng.randrange(14)
        tail = b"".join(rng.choice(pieces) for _ in range(count))
        front = rng.choice([b"", b"terminals=", b"terminals=a\nnonterminals=S\n",
                            b"terminals=a\nnonterminals=S,A\nrule=S:"])
        yield from at_ease(rng, [front + tail + rng.choice([b"", b"\n", b"\n"])])
    for _ in range(150):
        size = rng.randrange(60)
        yield from at_ease(rng, [bytes(rng.randrange(256) for _ in range(size))])


# Lines at fault.

def line_ends(rng: Rng) -> Iterator[Case]:
    """Byte 13 in place of byte 10 or before it, on all lines or one."""
    for _ in range(40):
        grammar = named_with_rules(rng)
        lines = lines_of(grammar)
        text = join_lines(lines)
        place = rng.randrange(len(lines))
        yield from with_lent(rng, grammar, [
            text.replace(b"\n", b"\r\n"), text.replace(b"\n", b"\r"),
            text.replace(b"\n", b"\n\r"),
            join_lines(change(lines, place, lines[place] + b"\r")),
            join_lines(change(lines, place, b"\r" + lines[place])),
            text[:-1], text[:-1] + b"\r", text + b"\r", text + b"\r\n", text + b"\0"])


def moved_lines(rng: Rng) -> Iterator[Case]:
    """Each line left out or repeated, and each two exchanged."""
    for _ in range(16):
        grammar = named_with_rules(rng)
        lines = lines_of(grammar)
        texts = []
        for place in range(len(lines)):
            texts.append(join_lines(lines[:place] + lines[place + 1:]))
            texts.append(join_lines(lines[:place + 1]))
            other = rng.randrange(len(lines) + 1)
            texts.append(join_lines(put(lines, other, [lines[place]])))
            for second in range(place):
                swapped = change(lines, place, lines[second])
                texts.append(join_lines(change(swapped, second, lines[place])))
        yield from with_lent(rng, grammar, texts)


def blank_lines(rng: Rng) -> Iterator[Case]:
    """A blank line, or one of spaces or without equals sign, in every place."""
    for _ in range(20):
        grammar = named_with_rules(rng)
        lines = lines_of(grammar)
        for place in range(len(lines) + 1):
            other = rng.choice([b" ", b"\t", b"#", b"terminals", b"nonterminals",
                                b"rule", b"rule S: a", b"S: a", b"a", b"="])
            yield from with_lent(rng, grammar, [
                join_lines(put(lines, place, [b""])),
                join_lines(put(lines, place, [other])),
                join_lines(put(lines, place, [b"", b""])) + b"\n"])


def keys(rng: Rng) -> Iterator[Case]:
    """Keys in wrong case, with spaces, cut, longer, exchanged."""
    grammar = named_with_rules(rng)
    lines = lines_of(grammar)[:3]
    for place, key in enumerate((b"terminals", b"nonterminals", b"rule")):
        value = lines[place][len(key) + 1:]
        wrong = [key.upper(), key.capitalize(), key[:-1] + key[-1:].upper(), b" " + key,
                 key + b" ", key[:1] + b" " + key[1:], key[:-1], key[1:], key + b"s",
                 key + b"\0", b"\0" + key, key + key, b"", b"x", key + b"-", b"terminals",
                 b"nonterminals", b"rule", b"\xef\xbb\xbf" + key, key + b"\r", key + b",",
                 b"nonterminal", b"non-terminals", b"rules", b"Rule", b"term=inals"]
        for one in wrong:
            for middle in (b"=", b" = ", b"==", b"= ", b":", b"", b" "):
                changed = join_lines(change(lines, place, one + middle + value))
                yield from with_lent(rng, grammar, [changed])
        for middle in (b" =", b"= ", b" = ", b"==", b":", b":=", b"", b"=\0"):
            changed = join_lines(change(lines, place, key + middle + value))
            yield from with_lent(rng, grammar, [changed])


def lists(rng: Rng) -> Iterator[Case]:
    """Lists with empty names, spaces, wrong marks between names."""
    values = [b"", b",", b",,", b"a,", b",a", b"a,,b", b",,a", b"a,,", b"a, b", b"a ,b",
              b" a", b"a ", b" ", b"a b", b"a;b", b"a,b,", b",a,b", b"a,b,c", b"a=b",
              b"=", b"a:b", b"a,\tb", b"a\0", b"-", b"--", b"-,--", b"0", b"0,1", b"A,a",
              b"a,aa", b"a,A,aA,Aa", b"a.b", b"a_b", b"a/b", b"\"a\"", b"a,b,a", b"a,a"]
    for value in values:
        for other in (b"", b"x,y", b"a"):
            for rule in (b"", b"rule=a:\n", b"rule=x: a\n"):
                yield from at_ease(rng, [
                    b"terminals=%s\nnonterminals=%s\n%s" % (value, other, rule),
                    b"terminals=%s\nnonterminals=%s\n%s" % (other, value, rule)])


def name_lengths(rng: Rng) -> Iterator[Case]:
    """Names of 14 to 17 bytes and much longer ones in every place."""
    for length in (0, 1, 14, 15, 16, 17, 30, 31, 32, 255, 256, 257, 271, 5000):
        for _ in range(4):
            name = random_name(rng, length)
            other = random_name(rng, 1 + rng.randrange(MAX_NAME))
            yield from at_ease(rng, [
                b"terminals=%s\nnonterminals=S\nrule=S: %s\n" % (name, name),
                b"terminals=a,%s\nnonterminals=SS\n" % name,
                b"terminals=%s,a\nnonterminals=SS\n" % name,
                b"terminals=\nnonterminals=%s\nrule=%s:\n" % (name, name),
                b"terminals=\nnonterminals=%s,%s\nrule=%s:\n" % (other + b"x", name, name),
                b"terminals=\nnonterminals=S\nrule=%s:\n" % name,
                b"terminals=\nnonterminals=S\nrule=S: S %s\n" % name,
                b"terminals=\nnonterminals=S\nrule=S: %s S\n" % name])


def all_bytes(rng: Rng) -> Iterator[Case]:
    """Every byte in a name, at each place where names stand."""
    for value in range(256):
        name = [b"%c", b"x%c", b"%cx", b"x%cx"][rng.randrange(4)] % bytes([value])
        yield from at_ease(rng, [
            b"terminals=a,%s\nnonterminals=S\nrule=S: a\n" % name,
            b"terminals=a\nnonterminals=S,%s\nrule=S: %s\n" % (name, name),
            b"terminals=a\nnonterminals=S,xx\nrule=%s: a\n" % name,
            b"terminals=xx,a\nnonterminals=S\nrule=S: a %s\n" % name])


def equal_names(rng: Rng) -> Iterator[Case]:
    """A name again in its list or the other one, and nearly equal names."""
    for _ in range(130):
        grammar = small_named(rng, 3)
        t, names = grammar.t, grammar.names
        name = rng.choice(names)
        place = rng.randrange(len(names) + 1)
        near = rng.choice([name.swapcase(), name + b"0", name[:-1] + b"-", name[1:] or b"q",
                           name[::-1]])[:MAX_NAME]
        for new in (name, near):
            more = names[:place] + [new] + names[place:]
            split = t + (1 if place < t or (place == t and rng.randrange(2)) else 0)
            lines = lines_of(grammar)
            lines[:2] = [b"terminals=" + b",".join(more[:split]),
                         b"nonterminals=" + b",".join(more[split:])]
            yield join_lines(lines), any_lent(rng, grammar)


# Counts of names.

def counts_of_names(rng: Rng) -> Iterator[Case]:
    """1,999 to 2,002 names, and fewer, different, or one twice, or all equal."""
    for count in (127, 128, 256, 1999, 2000, 2001, 2002):
        for names in (counted_names(count), random_names(rng, count)):
            double = names[:-1] + [rng.choice(names[:-1])]
            for some in (names, double, [names[0]] * count):
                listed = b",".join(some)
                yield from at_ease(rng, [
                    b"terminals=%s\nnonterminals=S\nrule=S:\n" % listed,
                    b"terminals=%s\nnonterminals=\n" % listed,
                    b"terminals=%s\n" % listed,
                    b"terminals=\nnonterminals=%s\n" % listed,
                    b"terminals=a\nnonterminals=%s\nrule=a:\n" % listed])
    for _ in range(24):
        names = random_names(rng, 50) + counted_names(MAX_NONTERMINALS - 49)
        yield from at_ease(rng, [
            b"terminals=%s\nnonterminals=S-S\n" % b",".join(names),
            b"terminals=a-a\nnonterminals=%s\n" % b",".join(names),
            b"terminals=%s\nnonterminals=\n" % b",".join(names[1:]),
            b"terminals=%s\nnonterminals=\nrule=S\n" % b",".join(names[:rng.randrange(9)])])


def thousands_of_names(rng: Rng) -> Iterator[Case]:
    """Lines of thousands of names: different, one double at the end, a bad one."""
    for count in (2001, 2050, 3000, 5000, 12000):
        names = counted_names(count)
        for some in (names, names[:-1] + names[:1], names[:-1] + names[-2:-1],
                     names[:-1] + [names[200]], names[:-1] + [names[1998]],
                     names[:1] + names[:-1], names[:-1] + [b""], names[:-1] + [b"a_b"],
                     names[:-1] + names[:1] + [b"0123456789abcdef"]):
            listed = b",".join(some)
            yield from at_ease(rng, [
                b"terminals=%s\nnonterminals=S\n" % listed,
                b"terminals=z\nnonterminals=%s\nrule=0000: z\n" % listed])
        across = [names[rng.randrange(60)]] if count < 5000 else [names[-1]]
        front = b",".join(names[:60] if count < 5000 else names[-60:])
        yield from at_ease(rng, [
            b"terminals=%s\nnonterminals=%s\n" % (front, b",".join(names[60:-60] + across)),
            b"terminals=%s\nnonterminals=%s\n" % (front, b",".join(names[60:-60]))])


def far_apart(rng: Rng) -> Iterator[Case]:
    """Lines past the limit with one double, its two places before, at or past the limit.

    Blocks of any size that are tried one by one would miss a double across two of them.
    """
    places = [0, 1, 255, 256, 1023, 1998, 1999, 2000, 2001, 4095, 4999]
    names = counted_names(5000)
    for later in range(1, len(places)):
        for first in {0, rng.randrange(later), later - 1}:
            some = list(names)
            some[places[later]] = some[places[first]]
            listed = b",".join(some[:max(places[later] + 1, MAX_TERMINALS + 1)])
            yield from at_ease(rng, [rng.choice([
                b"terminals=%s\nnonterminals=S\nrule=S:\n" % listed,
                b"terminals=S-\nnonterminals=%s\n" % listed])])
    for _ in range(24):
        earlier, own = names[:rng.choice([1, 200, 2000])], [b"x-" + name for name in names[:2003]]
        count = rng.choice([2001, 2002, 2003])
        own[rng.choice([0, 1000, 1999, 2000, count - 1])] = rng.choice(earlier)
        yield from at_ease(rng, [
            b"terminals=%s\nnonterminals=%s\n" % (b",".join(earlier), b",".join(own[:count]))])


# Rules at fault.

def rule_forms(rng: Rng) -> Iterator[Case]:
    """Rules with every kind of colon, space and left name, first or behind others."""
    values = [b"S:", b"S: ", b"S:a", b"S: a", b"S:  a", b"S: a ", b"S: a  b", b"S: a b",
              b"S", b"S a", b"S :", b"S : a", b" S:", b" S: a", b":", b": a", b" :", b"",
              b" ", b"S::", b"S:: a", b"S: :", b"S: a:", b"S: a: b", b"S: a :b", b"S:a b",
              b"S:a: b", b"S,", b"S, a", b"S: a,b", b"S: a, b", b"S:\ta", b"S: a\tb",
              b"S=a", b"S:=a", b"S: =", b"S: a=b", b"=S: a", b"S: a\r", b"S:\r", b"S\r:",
              b"a:", b"a: b", b"a: S", b"T:", b"T: a", b"S: c", b"S: a c", b"S: c a",
              b"s:", b"s: a", b"S: A", b"S: s", b"S: S", b"S: S S", b"S: S a S b",
              b"S: a\0", b"SS: a", b"S: aa", b"S: ab", b"S-: a", b"-: a", b"S: -",
              b"S:\xa0a",
              b"S -> a", b"S: a | b", b"S: |", b"a:  b", b"T: a  b", b"S: c  a", b"T:  "]
    front = b"terminals=a,b\nnonterminals=S,U\n"
    for value in values:
        rule = b"rule=" + value
        yield from at_ease(rng, [
            front + rule + b"\n", front + rule, front + b"rule=U: a\n" + rule + b"\n",
            front + rule + b"\nrule=U: a\n", front + rule + b"\nrule=X:\n",
            front + rule + b"\nrule=\n", front + b"rule=U:\nrule=U:\n" + rule + b"\n"])


def unknown_names(rng: Rng) -> Iterator[Case]:
    """Unknown names and terminals on the left, on any rule line."""
    for _ in range(160):
        grammar = named_with_rules(rng)
        place = rng.randrange(len(grammar.rules))
        lines = lines_of(grammar)
        left, right = lines[2 + place][5:].split(b":")
        bad = [unused_name(rng, grammar), rng.choice(grammar.names)[:-1] + b"-",
               grammar.names[0] + b"0"]
        line = rng.choice([
            b"rule=%s:%s" % (rng.choice(bad), right),
            b"rule=%s:%s" % (rng.choice(grammar.names[:grammar.t]), right),
            b"rule=%s:%s %s" % (left, right, rng.choice(bad)),
            b"rule=%s: %s%s" % (left, rng.choice(bad), right)])
        yield from with_lent(rng, grammar, [
            join_lines(change(lines, 2 + place, line)),
            join_lines(put(lines, 2 + rng.randrange(len(lines) - 1), [line]))])


def right_lengths(rng: Rng) -> Iterator[Case]:
    """Right sides of 0 to 14 names and of many more."""
    for k in list(range(15)) + [12] * 9 + [13, 13, 20, 100, 255, 256, 257, 268, 3000]:
        for _ in range(4):
            grammar = named_with_rules(rng)
            rule = random_rule(rng, grammar.t, grammar.n, k)
            line, lines = rule_line(grammar, rule), lines_of(grammar)
            yield from with_lent(rng, grammar, [
                join_lines(lines + [line]), join_lines(lines[:2] + [line]),
                join_lines(lines + [line + b" " + unused_name(rng, grammar)]),
                join_lines(lines + [line + b" "]),
                join_lines(put(lines, 2, [line]) + [b"rule="])])


def many_rules(rng: Rng) -> Iterator[Case]:
    """398 to 403 rules, then equal ones, ones past Q = 1,024, lines at fault."""
    for count in (398, 399, 400, 401, 402, 403):
        for _ in range(2):
            grammar = large_named(rng, count, 420 + rng.randrange(604))
            yield text_of(grammar), any_lent(rng, grammar)
    for _ in range(20):
        grammar = large_named(rng, MAX_RULES, 820 + rng.randrange(205))
        new = random_rule(rng, grammar.t, grammar.n, rng.randrange(4))
        yield from with_lent(rng, grammar, after_rules(rng, grammar, new))
        grammar = large_named(rng, MAX_RULES, MAX_STATES)
        equal = rng.choice(grammar.rules)
        yield from with_lent(rng, grammar, after_rules(rng, grammar, equal))
        again = grammar._replace(rules=grammar.rules[:1] + grammar.rules)
        past = large_named(rng, 401 + rng.randrange(4), 1100 + rng.randrange(90))
        yield from with_lent(rng, grammar, [text_of(again), text_of(past)])


def many_states(rng: Rng) -> Iterator[Case]:
    """Q from just under 1,024 to just past it, then more rules or lines at fault."""
    for states in list(range(1019, 1030)) + [1024, 1024, 1025, 1025, 1036]:
        grammar = large_named(rng, some_rules(rng), states)
        yield text_of(grammar), any_lent(rng, grammar)
    for _ in range(20):
        grammar = large_named(rng, some_rules(rng), MAX_STATES)
        new = random_rule(rng, grammar.t, grammar.n, rng.randrange(4))
        yield from with_lent(rng, grammar, after_rules(rng, grammar, new))
        more = grammar._replace(rules=grammar.rules + [new])
        equal = rng.choice(grammar.rules)
        yield from with_lent(rng, grammar, after_rules(rng, more, equal))
        yield from with_lent(rng, grammar, after_rules(rng, grammar, equal))


def after_rules(rng: Rng, grammar: Named, rule: Rule) -> List[bytes]:
    """The text with one rule more, and with a line at fault after that."""
    lines = lines_of(grammar) + [rule_line(grammar, rule)]
    long = random_rule(rng, grammar.t, grammar.n, MAX_LENGTH + 1 + rng.randrange(3))
    unknown = b"rule=" + unused_name(rng, grammar) + b":"
    faults = [unknown, b"rule", rule_line(grammar, long)]
    return [join_lines(lines)] + [join_lines(lines + [fault]) for fault in faults]


def equal_rules(rng: Rng) -> Iterator[Case]:
    """A rule again, next to the first or further on, then lines at fault."""
    for _ in range(90):
        grammar = named_with_rules(rng)
        first = rng.randrange(len(grammar.rules))
        later = first + 1 + rng.choice([0, rng.randrange(len(grammar.rules) - first)])
        again = rule_line(grammar, grammar.rules[first])
        lines = put(lines_of(grammar), 2 + later, [again])
        fault = faulty_rule_line(rng, grammar, rng.choice([1, 2, 4, 6]))
        yield from with_lent(rng, grammar, [
            join_lines(lines), join_lines(lines + [fault]),
            join_lines(lines + lines[2:3])])


# No sentence.

def without_a_sentence(rng: Rng) -> Iterator[Case]:
    """No sentence, with rows long enough, exact, too short, and without entries."""
    for table in [*sentenceless(rng, 16), *large_sentenceless(rng, 16)]:
        grammar = named_table(rng, table)
        yield text_of(grammar), any_lent(rng, grammar)
        exact = exact_lent(grammar)
        short = [exact._replace(table=exact.table - 1)] * (exact.table > 0)
        short += [exact._replace(starts=0), exact._replace(lengths=exact.lengths - 1)]
        yield text_of(grammar), rng.choice(short + [Lent(0, 0, 0)])


def nearly_without(rng: Rng) -> Iterator[Case]:
    """Only the empty sentence; sentences that need the first rule, or the last."""
    for table in nearly_sentenceless(rng, 30):
        grammar = named_table(rng, table)
        yield text_of(grammar), any_lent(rng, grammar)


def faulty_without(rng: Rng) -> Iterator[Case]:
    """Each cause of lines and rules where there is no sentence either."""
    for table in sentenceless(rng, 8):
        grammar = named_table(rng, table)
        lines = lines_of(grammar)
        place = 2 + rng.randrange(len(lines) - 1)
        for fault in (1, 2, 4):
            line = faulty_rule_line(rng, grammar, fault)
            yield join_lines(put(lines, place, [line])), any_lent(rng, grammar)
    fewer = [table_of(large(rng, 300, MAX_STATES)) for _ in range(34)]
    for table in [*large_sentenceless(rng, 34), *fewer]:
        grammar = named_table(rng, table)
        _, right = random_rule(rng, grammar.t, grammar.n, 1 + rng.randrange(3))
        for rule in ((S + 1, right), rng.choice(grammar.rules)):
            more = grammar._replace(rules=grammar.rules + [rule])
            yield text_of(more), any_lent(rng, grammar)


# Several faults.

def spoiled(rng: Rng, line: bytes) -> bytes:
    """The line made malformed, its names left as they are where it can be."""
    key, _, value = line.partition(b"=")
    return rng.choice([
        line + b",", line + b" ", line + b"\r", line + b"\0", key + b"= " + value,
        key + b"=," + value, key + value, key.upper() + b"=" + value, key + b"==" + value,
        key + b" =" + value, line.replace(b",", b",,", 1).replace(b":", b"::", 1) + b"=",
        line + b",0123456789abcdef"])


def faulty_list(
    rng: Rng, key: bytes, names: Sequence[bytes], earlier: Sequence[bytes], faults: int
) -> bytes:
    """A list's line with a fault for each bit: 1 is 16, 2 is 18, 4 is cause 1."""
    some = list(names)
    if faults & 4:
        fresh = [b"q" + name for name in counted_names(2010)]
        some += fresh[:2001 - len(some) + rng.choice([0, 0, 1, 9])]
    if faults & 2:
        other = rng.choice((list(earlier) + some) or [b"S"])
        some.insert(rng.randrange(len(some) + 1), other)
        if some.count(other) + list(earlier).count(other) < 2:
            some.append(other)
    line = key + b"=" + b",".join(some)
    return spoiled(rng, line) if faults & 1 else line


def faulty_rule_line(rng: Rng, grammar: Named, faults: int) -> bytes:
    """A rule's line with a fault for each bit: 1 is 16, 2 is 17, 4 is cause 4."""
    k = MAX_LENGTH + 1 + rng.randrange(3) if faults & 4 else rng.randrange(5)
    left, right = random_rule(rng, grammar.t, grammar.n, k)
    names = rule_line(grammar, (left, right))[5:].replace(b":", b"").split(b" ")
    if faults & 2:
        place = rng.choice([0, rng.randrange(len(names))])
        terminals = grammar.names[:grammar.t] if place == 0 else []
        names[place] = rng.choice([unused_name(rng, grammar)] + terminals[:1])
    line = b"rule=" + names[0] + b":" + b"".join(b" " + name for name in names[1:])
    if faults & 1:
        return rng.choice([spoiled(rng, line), line.replace(b": ", b":", 1) + b":",
                           line.replace(b" ", b"  ", 1) + b" ", line.replace(b":", b"")])
    return line


def faulty_lines(rng: Rng) -> Iterator[Case]:
    """Every choice of faults on the first two lines, and some on two rule lines."""
    for _ in range(8):
        for first in range(8):
            for second in range(8):
                if first & 4 and rng.randrange(2):
                    continue
                yield faulty_case(rng, first, second, rng.randrange(8), rng.randrange(8))
    for _ in range(12):
        for third in range(8):
            for last in range(8):
                yield faulty_case(rng, 0, 0, third, last)


def faulty_case(rng: Rng, first: int, second: int, third: int, last: int) -> Case:
    """A text with faults on lines 1 and 2, on a rule line and on the last one."""
    grammar = named_with_rules(rng)
    terminals, nonterminals = grammar.names[:grammar.t], grammar.names[grammar.t:]
    lines = lines_of(grammar)
    lines[0] = faulty_list(rng, b"terminals", terminals, [], first)
    lines[1] = faulty_list(rng, b"nonterminals", nonterminals, terminals, second)
    if second == 4 and rng.randrange(2):
        lines[1] = b"nonterminals="
    lines = put(lines, 2 + rng.randrange(len(lines) - 1),
                [faulty_rule_line(rng, grammar, third)])
    lines.append(faulty_rule_line(rng, grammar, last))
    kept = rng.choice([len(lines)] * 5 + [1, 2])
    text = join_lines(lines[:kept])
    return text[:len(text) - (rng.randrange(8) == 0)], any_lent(rng, grammar)


def without_line_2(rng: Rng) -> Iterator[Case]:
    """A first line alone, good or at fault."""
    for faults in range(8):
        for _ in range(16 if faults == 4 else 6):
            names = random_names(rng, rng.randrange(6))
            line = faulty_list(rng, b"terminals", names, [], faults)
            yield from at_ease(rng, [line + b"\n", line, line + b"\n\n"])


def faults_and_short_rows(rng: Rng) -> Iterator[Case]:
    """Each cause together with rows that are too short, one or all of them."""
    rows = [Lent(0, 0, 0), Lent(1500, 0, 4000), Lent(1500, 4000, 0), Lent(0, 4000, 4000)]
    for _ in range(6):
        grammar = named_with_rules(rng)
        lines = lines_of(grammar)
        texts = [join_lines(change(lines, 0, spoiled(rng, lines[0])))]
        for place, fault in ((0, 2), (1, 2), (0, 4), (1, 4)):
            key, _, value = lines[place].partition(b"=")
            line = faulty_list(rng, key, value.split(b","), [], fault)
            texts.append(join_lines(change(lines, place, line)))
        texts += [join_lines(lines + [faulty_rule_line(rng, grammar, fault)])
                  for fault in (1, 2, 4)]
        texts.append(join_lines(lines + lines[-1:]))
        for other in (large_named(rng, 401, 820), large_named(rng, 160, 1025)):
            texts.append(text_of(other))
        for text in texts:
            for lent in rows:
                yield text, lent


# Texts near and past the longest.

def padded_list(size: int) -> List[bytes]:
    """Different names that fill a list of exactly `size` bytes."""
    names = counted_names(size // 5)
    names[-1] += b"-" * (size - (5 * len(names) - 1))
    return names


def padded_rules(size: int) -> bytes:
    """Rule lines of S, a and bb, all but the last equal, of `size` bytes."""
    count = size // 10 - 2
    last = size - 10 * count
    more = last - 8
    right = b" a" * ((more - 3 * (more % 2)) // 2) + b" bb" * (more % 2)
    return b"rule=S: a\n" * count + b"rule=S:" + right + b"\n"


def long_texts_of(rng: Rng, size: int) -> List[bytes]:
    """Texts of `size` bytes, with each cause as first fault but for the length."""
    plain = b"terminals=a,bb\nnonterminals=S\n"
    front, back = b"terminals=", b"\nnonterminals=S\nrule=S:\n"
    names = padded_list(size - len(front) - len(back))
    double = names[:-2] + [names[rng.randrange(3)], names[-1]]
    wrong = names[:-2] + [names[-2][:3] + b"_", names[-1]]
    other = b"terminals=a\nnonterminals="
    second = padded_list(size - len(other) - 1)
    texts = [front + b",".join(some) + back for some in (names, double, wrong)]
    texts += [other + b",".join(second) + b"\n",
              other + b",".join(second[:-2] + [second[0], second[-1]]) + b"\n"]
    texts += [plain + padded_rules(size - len(plain))]
    for tail in (b"rule=S: c\n", b"rule=S:\n\n", b"rule=S:" + b" a" * 13 + b"\n"):
        texts.append(plain + padded_rules(size - len(plain) - len(tail)) + tail)
    for grammar in (large_named(rng, MAX_RULES + 1, 800), large_named(rng, 160, 1200)):
        names = [b"a", b"bb"] + long_names(rng, grammar.t - 2)
        names += [b"S"] + long_names(rng, grammar.n - 1)
        text = text_of(grammar._replace(names=names))
        texts.append(text + padded_rules(size - len(text)))
    return texts


def longest_texts(rng: Rng) -> Iterator[Case]:
    """262,143 to 262,145 bytes, and longer; good texts with bytes after them."""
    for size in (MAX_TEXT, MAX_TEXT + 1):
        yield from at_ease(rng, long_texts_of(rng, size))
    for size in (MAX_TEXT - 1, MAX_TEXT, MAX_TEXT + 1, MAX_TEXT + 2, MAX_BYTES):
        mark = rng.choice(b"\n\0 a")
        yield from at_ease(rng, [(EXAMPLE + bytes([mark]) * size)[:size]])
        yield from at_ease(rng, [b"a" * size, (EXAMPLE * size)[:size - 1] + b"\n"])
    yield from at_ease(rng, [b"\n" * 65536, b"a" * 65537])


# Case.

def with_lists(grammar: Named, names: List[bytes], split: int) -> List[bytes]:
    """The grammar's lines, with these names declared, so many of them as terminals."""
    return [b"terminals=" + b",".join(names[:split]),
            b"nonterminals=" + b",".join(names[split:])] + lines_of(grammar)[2:]


def declared_in_two_cases(rng: Rng) -> Iterator[Case]:
    """A name again in another case, in its list or the other one; then lines at fault or none."""
    for _ in range(150):
        grammar = lettered(rng, 3)
        t, names = grammar.t, grammar.names
        other = in_another_case(rng, rng.choice(names))
        place = rng.randrange(len(names) + 1)
        split = t + (1 if place < t or (place == t and rng.randrange(2)) else 0)
        lines = with_lists(grammar, names[:place] + [other] + names[place:], split)
        fault = faulty_rule_line(rng, grammar, rng.choice([1, 2, 4, 6]))
        line = rng.randrange(2)
        yield from with_lent(rng, grammar, [
            join_lines(lines), join_lines(rng.choice([lines[:1], lines[:2], lines + [fault]])),
            join_lines(change(lines, line, spoiled(rng, lines[line])))])


def used_in_another_case(rng: Rng) -> Iterator[Case]:
    """Uses in another case than declared: all, of one kind, on one side, some; large texts too."""
    for _ in range(70):
        grammar = lettered(rng, rng.choice([2, 6, 12]))
        lines = lines_of(grammar)
        texts = [respelled(rng, lines, respell) for respell in ways_to_respell(grammar)]
        place = 2 + rng.randrange(len(grammar.rules))
        for left in (True, False):
            line = respelled_rule(rng, lines[place], in_another_case, left, not left)
            texts.append(change(lines, place, line))
        yield from with_lent(rng, grammar, [join_lines(some) for some in texts])
    for _ in range(8):
        for grammar in (full_named(rng), large_named(rng, MAX_RULES, MAX_STATES),
                        large_named(rng, some_rules(rng), MAX_STATES)):
            texts = respelled(rng, lines_of(grammar), in_another_case)
            yield join_lines(texts), any_lent(rng, grammar)
    t, end = MAX_TERMINALS, S + MAX_NONTERMINALS - 1
    for _ in range(10):
        grammar = with_names(rng, t, MAX_NONTERMINALS, [(S, (1, end, t)), (end, (t, end)), (end, ())])
        yield join_lines(respelled(rng, lines_of(grammar), in_another_case)), ample_lent(rng)
    grammar = longest_named(rng)
    yield join_lines(respelled(rng, lines_of(grammar), in_another_case)), exact_lent(grammar)
    for table in sentenceless(rng, 2):
        grammar = named_table(rng, table)
        texts = respelled(rng, lines_of(grammar), in_another_case)
        yield join_lines(texts), any_lent(rng, grammar)


def terminals_in_another_case(rng: Rng) -> Iterator[Case]:
    """A terminal in another case on the left, beside good rules and faulty ones."""
    for _ in range(30):
        grammar = lettered(rng)
        lines = respelled(rng, lines_of(grammar), in_another_case)
        left = in_another_case(rng, rng.choice(grammar.names[:grammar.t]))
        _, right = random_rule(rng, grammar.t, grammar.n, rng.choice([0, 1, 3, 13]))
        line = rule_line(grammar, (S, right)).partition(b":")[2]
        yield from with_lent(rng, grammar, [
            join_lines(put(lines, 2 + rng.randrange(len(lines) - 1), [b"rule=%s:%s" % (left, line)]))])


def equal_but_for_case(rng: Rng) -> Iterator[Case]:
    """A rule again with its names in another case, next to the first or further on."""
    for _ in range(60):
        grammar = lettered(rng)
        first = rng.randrange(len(grammar.rules))
        later = first + 1 + rng.choice([0, rng.randrange(len(grammar.rules) - first)])
        again = respelled_rule(rng, rule_line(grammar, grammar.rules[first]), in_another_case)
        lines = put(lines_of(grammar), 2 + later, [again])
        fault = faulty_rule_line(rng, grammar, rng.choice([1, 2, 4, 6]))
        yield from with_lent(rng, grammar, [join_lines(lines), join_lines(lines + [fault])])


def nearly_one_name(rng: Rng) -> Iterator[Case]:
    """Names that differ by 32 in a digit or hyphen, or in length: declared both, or used for another."""
    pairs = [(b"%c" % low, b"%c" % high) for low, high in APART.items() if low < high]
    for low, high in pairs:
        yield from at_ease(rng, [
            b"terminals=%s,%s\nnonterminals=S-S\nrule=s-s: %s %s\n" % (low, high, high.lower(), low),
            b"terminals=a%s\nnonterminals=S-S,A%s\nrule=S-S: a%s\n" % (high, low, low),
            b"terminals=%sz\nnonterminals=S-S\nrule=S-S: %sz\n" % (low, high)])
    for _ in range(60):
        names = lettered_names(rng, 3)
        if not places_apart(names[0]):
            names[0] = (b"Q7-" + names[0])[:MAX_NAME]
        near = apart(rng, in_another_case(rng, names[0]))
        if not places_apart(near):
            near = apart(rng, names[0])
        shorter = rng.choice([names[0][:-1], names[0] + b"-"])[:MAX_NAME] or b"q"
        for other in (near, shorter):
            yield from at_ease(rng, [
                b"terminals=%s,%s\nnonterminals=--0\nrule=--0: %s\n" % (names[0], other, other.swapcase()),
                b"terminals=%s\nnonterminals=--0,%s\nrule=--0: %s\n" % (names[0], other, names[0].upper()),
                b"terminals=%s\nnonterminals=--0\nrule=--0: %s\n" % (names[0], other),
                b"terminals=\nnonterminals=%s\nrule=%s:\n" % (names[0], other)])


def next_to_the_letters(rng: Rng) -> Iterator[Case]:
    """Bytes 64, 91, 96 and 123 in names, also in two names that differ by 32 there."""
    for byte in NEXT_TO_LETTERS:
        other = byte ^ 32
        for form in (b"%c", b"x%c", b"%cx", b"X%cx", b"z%cZ-1"):
            one, two = form % byte, form % other
            yield from at_ease(rng, [
                b"terminals=%s,%s\nnonterminals=S\nrule=S:\n" % (one, two),
                b"terminals=%s\nnonterminals=S,%s\nrule=S:\n" % (two.replace(b"%c" % other, b"q"), one),
                b"terminals=a\nnonterminals=S\nrule=S: %s\n" % one,
                b"terminals=a\nnonterminals=S\nrule=%s: a\n" % one])


def shouted(rng: Rng) -> Iterator[Case]:
    """Keys in another case, on one line or all, with the names or without them."""
    for _ in range(30):
        grammar = lettered(rng)
        lines = lines_of(grammar)
        place = rng.randrange(len(lines))
        key, _, value = lines[place].partition(b"=")
        yield from with_lent(rng, grammar, [
            join_lines(lines).upper(), join_lines(change(lines, place, lines[place].swapcase())),
            join_lines(change(lines, place, in_another_case(rng, key) + b"=" + value))])


def thousands_in_two_cases(rng: Rng) -> Iterator[Case]:
    """Lines of more than 2,000 names, of which two differ in case alone, near or far apart."""
    places = [0, 1, 255, 256, 1023, 1998, 1999, 2000, 2001, 2500, 3000, 4095, 4999]
    names = [b"q" + name for name in counted_names(5000)]
    for later in range(1, len(places)):
        for first in sorted({0, rng.randrange(later), later - 1}):
            some = list(names)
            some[places[later]] = in_another_case(rng, some[places[first]])
            listed = b",".join(some[:max(places[later] + 1, MAX_TERMINALS + 1)])
            yield from at_ease(rng, [
                b"terminals=%s\nnonterminals=S\nrule=S:\n" % listed,
                b"terminals=S-\nnonterminals=%s\n" % listed])
    for count in (12000, 43000):
        many = [b"q" + name for name in counted_names(count)]
        for first in (0, count // 2):
            listed = b",".join(many[:-1] + [in_another_case(rng, many[first])])
            yield from at_ease(rng, [
                b"terminals=%s\nnonterminals=S\n" % listed, b"terminals=-\nnonterminals=%s\n" % listed])
    for _ in range(28):
        earlier, own = names[:rng.choice([1, 200, 2000])], [b"x-" + name for name in names[:2003]]
        count = rng.choice([2001, 2002, 2003])
        double = in_another_case(rng, rng.choice(earlier))
        own[rng.choice([0, 1000, 1999, 2000, count - 1])] = double
        yield from at_ease(rng, [
            b"terminals=%s\nnonterminals=%s\n" % (b",".join(earlier), b",".join(own[:count]))])


GROUPS: List[Group] = [
    figures, good_small, good_large, lent_rows, replaced_bytes, changed_bytes,
    cut_texts, no_lines, damaged, noise, line_ends, moved_lines, blank_lines, keys,
    lists, name_lengths, all_bytes, equal_names, counts_of_names, thousands_of_names,
    far_apart,
    rule_forms, unknown_names, right_lengths, many_rules, many_states, equal_rules,
    faulty_lines, without_line_2, faults_and_short_rows, longest_texts,
    without_a_sentence, nearly_without, faulty_without,
    declared_in_two_cases, used_in_another_case, terminals_in_another_case, equal_but_for_case,
    nearly_one_name, next_to_the_letters, shouted, thousands_in_two_cases,
]


def all_cases() -> Iterator[Case]:
    """Every group's cases."""
    return cases_of(GROUPS, SEED)
