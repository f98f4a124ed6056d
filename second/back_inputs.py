"""The inputs of the cases of reading back, in groups; they depend on the seed alone.

Lines are put together here without readings.py; it only says what the program
adds for a witness.
"""

from functools import lru_cache
from typing import Callable, Dict, Iterator, List, NamedTuple, Tuple

from case_files import Group, Rng, cases_of
from corpus import POTENTIAL, REFUSED, entries, text_in
from corpus_texts import FAULTS, counting
from named_grammars import (
    MAX_BYTES, MAX_LENT, Named, good_figures, join_lines, lines_of, random_name,
    random_names, small_named, text_of,
)
from random_tables import random_rules, small_grammar, with_sentence
from readings import LentStrings, NamedGrammar, named_in, reading_lines
from robot_grammars import grown, states_of
from sentence_grammars import (
    large_sentenceless, named_table, nearly_sentenceless, sentenceless,
)
from spelling import (
    NEXT_TO_LETTERS, apart, in_another_case, lettered, lettered_names, letters_in, places_apart,
    respelled,
)
from tables import MAX_NONTERMINALS, MAX_RULES, MAX_TERMINALS
from text import MAX_NAME, MAX_TEXT
from text_read_inputs import damage, named_with_rules, spoiled

SEED = 4
EACH = 54                  # cases of a kind
IN_WORDS = 50              # of a kind of word, of which other groups have some more
SMALL_TEXT = 600           # bytes of a text of the corpus that is taken for any lines
GROWN = 64                 # states of a grown grammar

KEYS = b"left", b"right"
# Names that look like something else, or like each other.
ODD_NAMES = [b"0", b"1", b"00", b"01", b"10", b"100", b"-", b"--", b"-1", b"left", b"right",
             b"left-", b"rule", b"terminals", b"a", b"P", b"aa", b"aP", b"S", b"M", b"1a",
             b"0123456789abcde", b"0123456789abcdF"]
NAME_MARKS = b"!\"#$%&'*+,./:;<=>?@[\\]^_`{|}~\x7f\x01\x0b\x0c"     # no tab, 0, 13, brackets

Words = List[bytes]


class Case(NamedTuple):
    text: bytes
    lines: bytes
    lent: LentStrings


class Base(NamedTuple):
    """A good grammar text, how many rules it has, and its names."""

    text: bytes
    rules: int
    names: List[bytes]


class Good(NamedTuple):
    """A grammar, and the words of two strings of its letters."""

    base: Base
    left: Words
    right: Words


# Grammars.

def base_of(grammar: Named) -> Base:
    return Base(text_of(grammar), len(grammar.rules), grammar.names)


def named_text(text: bytes) -> NamedGrammar:
    """The grammar of a good text."""
    named = named_in(text)
    assert isinstance(named, NamedGrammar)
    return named


@lru_cache(maxsize=1)
def corpus_bases() -> Tuple[Base, ...]:
    """The short texts of the corpus that are read."""
    texts = [text_in(entry.name) for entry in entries() if entry.verdict != REFUSED]
    found = [(text, named_text(text)) for text in texts if len(text) <= SMALL_TEXT]
    return tuple(Base(text, len(named.grammar.rules), named.names) for text, named in found)


def odd_named(rng: Rng) -> Named:
    """A small grammar with names that look like numbers, keys or each other."""
    t, n, rules = small_grammar(rng, 6)
    return Named(t, n, rules, rng.sample(ODD_NAMES, t + n))


def limits_named(rng: Rng) -> Named:
    """All limits of symbols and rules at once."""
    t, n = MAX_TERMINALS, MAX_NONTERMINALS
    rules = random_rules(rng, t, n, [rng.randrange(3) for _ in range(MAX_RULES - 40)] + [1] * 40)
    return Named(t, n, with_sentence(rng, t, rules), random_names(rng, t + n))


def some_base(rng: Rng) -> Base:
    """A small grammar of any kind."""
    kind = rng.randrange(10)
    if kind == 0:
        return base_of(rng.choice(good_figures()))
    if kind < 3:
        return base_of(odd_named(rng))
    if kind == 3:
        return rng.choice(corpus_bases())
    if kind == 4:
        return base_of(grown(rng, 2, GROWN))
    return base_of(small_named(rng))


# Strings.

def random_words(rng: Rng, base: Base, count: int) -> Words:
    """So many letters of the grammar: openings, closings, names."""
    words = []
    for _ in range(count):
        rule = rng.choice([0, base.rules, rng.randrange(base.rules + 1)])
        words.append(rng.choice([b"(%d" % rule, b")%d" % rule] + 2 * [rng.choice(base.names)]))
    return words


def some_length(rng: Rng) -> int:
    return rng.choice([0, 1, 2, 3, rng.randrange(9), rng.randrange(25)])


def some_good(rng: Rng, fewest: int = 0) -> Good:
    """Strings of a small grammar, each of so many letters at least."""
    base = some_base(rng)
    left, right = (random_words(rng, base, fewest + some_length(rng)) for _ in range(2))
    return Good(base, left, right)


def two(left: bytes, right: bytes) -> bytes:
    """The lines of these values."""
    return b"left=%s\nright=%s\n" % (left, right)


def good_lines(good: Good) -> bytes:
    return two(b" ".join(good.left), b" ".join(good.right))


def with_words(good: Good, line: int, words: Words) -> Good:
    """Other words on line 1 or 2."""
    return good._replace(left=words) if line == 1 else good._replace(right=words)


def words_of(good: Good, line: int) -> Words:
    """The words of line 1 or 2."""
    return list(good.left if line == 1 else good.right)


def with_value(good: Good, line: int, value: bytes) -> bytes:
    """The lines with another value on line 1 or 2."""
    values = [b" ".join(good.left), b" ".join(good.right)]
    values[line - 1] = value
    return two(*values)


def with_line(good: Good, line: int, content: bytes) -> bytes:
    """The lines with line 1 or 2 replaced, its byte 10 left where it is."""
    lines = good_lines(good).split(b"\n")
    lines[line - 1] = content
    return b"\n".join(lines)


# Rows.

def exact(good: Good) -> LentStrings:
    return LentStrings(len(good.left), len(good.right))


def any_lent(rng: Rng, good: Good) -> LentStrings:
    """Rows of all sizes, enough in most cases."""
    left, right = exact(good)
    kind = rng.randrange(8)
    if kind < 3:
        return LentStrings(left, right)
    if kind < 6:
        return LentStrings(left + rng.randrange(40), right + rng.randrange(40))
    if kind == 6:
        return LentStrings(max(0, left - rng.randrange(2)), max(0, right - rng.randrange(2)))
    return LentStrings(rng.choice([0, left]), rng.choice([0, right]))


def beside_a_fault(rng: Rng, good: Good) -> LentStrings:
    """Rows of all sizes; often none, for faults that come before 14."""
    return rng.choice([LentStrings(0, 0), LentStrings(0, 0), any_lent(rng, good)])


# Good lines.

def potential_texts(rng: Rng) -> Iterator[bytes]:
    """Texts that the verdict potential is given for."""
    for entry in entries():
        if entry.verdict == POTENTIAL:
            yield text_in(entry.name)
    grammars = good_figures() + [small_named(rng) for _ in range(100)]
    grammars += [odd_named(rng) for _ in range(30)] + [grown(rng, 4, GROWN) for _ in range(30)]
    for text in map(text_of, grammars + [counting(rng) for _ in range(12)]):
        if reading_lines(named_text(text)):
            yield text


def own_lines(rng: Rng) -> Iterator[Case]:
    """What the program adds, lent just enough, one too few, and otherwise."""
    for text in potential_texts(rng):
        lines = reading_lines(named_text(text))
        left, right = [line.count(b" ") + 1 for line in lines.split(b"\n")[:2]]
        yield Case(text, lines, LentStrings(left, right))
        yield Case(text, lines, rng.choice([
            LentStrings(left - 1, right), LentStrings(left, right - 1),
            LentStrings(left + rng.randrange(9), right + 1 + rng.randrange(900))]))


def random_strings(rng: Rng) -> Iterator[Case]:
    """Any letters of a grammar, in strings that need not be accepted."""
    for _ in range(160):
        good = some_good(rng)
        yield Case(good.base.text, good_lines(good), any_lent(rng, good))


def empty_strings(rng: Rng) -> Iterator[Case]:
    """One side without letters, or both."""
    for _ in range(EACH):
        good = some_good(rng, 1)
        neither = Good(good.base, [], [])
        yield Case(good.base.text, good_lines(neither), any_lent(rng, neither))
        for line in (1, 2):
            one = with_words(good, line, [])
            yield Case(good.base.text, good_lines(one), exact(one))


def long_strings(rng: Rng) -> Iterator[Case]:
    """More letters than a witness of the grammar has, and more than one of 48 states has."""
    for _ in range(EACH):
        grammar = small_named(rng, 2)
        base, most = base_of(grammar), 2 * states_of(grammar) ** 2
        sizes = [max(most, 256) + rng.randrange(3), rng.choice([0, 3, most - 1])]
        rng.shuffle(sizes)
        good = Good(base, *(random_words(rng, base, size) for size in sizes))
        yield Case(base.text, good_lines(good), exact(good))
    for size in (256, 1024, 4607, 4608, 9000):
        good = Good(base, random_words(rng, base, size), [])
        for short in (0, 1):
            yield Case(base.text, good_lines(good), LentStrings(size - short, 0))


def long_lines(rng: Rng) -> Iterator[Case]:
    """Lines of more bytes than a text may have."""
    good = some_good(rng)
    for left, right in ((90000, 1), (1, 90000), (44000, 45000)):
        words = good._replace(left=[b"(0"] * left, right=[b")0"] * right)
        for short in (0, 1):
            yield Case(good.base.text, good_lines(words), LentStrings(left - short, right))


def at_the_limits(rng: Rng) -> Iterator[Case]:
    """400 rules, 2,000 terminals, 2,000 nonterminals: the last of each, and one more."""
    for _ in range(13):
        grammar = limits_named(rng)
        base = base_of(grammar)
        last = [b"(%d" % base.rules, b")%d" % base.rules, base.names[grammar.t - 1], base.names[-1]]
        for _ in range(4):
            right = random_words(rng, base, some_length(rng)) + [b"(%d" % rng.randrange(10, 100)]
            good = Good(base, rng.sample(last, 4), right)
            yield Case(base.text, good_lines(good), exact(good))
        words = last + [rng.choice([b"(%d", b")%d"]) % (base.rules + 1 + rng.choice([0, 0, 155]))]
        yield Case(base.text, with_value(good, rng.choice([1, 2]), b" ".join(words)), exact(good))


def lent_rows(rng: Rng) -> Iterator[Case]:
    """Rows one short in each, longer, without entries, exchanged."""
    most = MAX_LENT
    short = [(-1, -1), (-1, most), (most, -1), (-most, 0), (0, -most), (-most, -most)]
    others = [(0, 0), (1, 0), (0, 1), (900, 900), (-1, 0), (0, -1)]
    for _ in range(EACH):
        good = some_good(rng, 1)
        if len(good.left) == len(good.right):
            good = good._replace(right=good.right + good.left)
        sizes = exact(good)
        yield Case(good.base.text, good_lines(good), LentStrings(*sizes[::-1]))
        for change in short + [rng.choice(others)]:
            lent = [min(most, max(0, size + more)) for size, more in zip(sizes, change)]
            yield Case(good.base.text, good_lines(good), LentStrings(*lent))


# Words that are malformed.

def bracket(rng: Rng) -> bytes:
    return rng.choice([b"(", b")"])


def number(rng: Rng, base: Base) -> bytes:
    """The number of a rule."""
    return b"%d" % rng.randrange(base.rules + 1)


def bare_opening(rng: Rng, base: Base) -> bytes:
    return b"("


def bare_closing(rng: Rng, base: Base) -> bytes:
    return b")"


def after_zeros(rng: Rng, base: Base) -> bytes:
    """A number that is not 0, a rule's if there are any."""
    return b"%d" % (1 + rng.randrange(max(1, base.rules)))


def leading_zeros(rng: Rng, base: Base) -> bytes:
    return bracket(rng) + b"0" * (1 + rng.randrange(3)) + after_zeros(rng, base)


def zeros_alone(rng: Rng, base: Base) -> bytes:
    return bracket(rng) + b"0" * (2 + rng.randrange(12))


def hundreds_of_zeros(rng: Rng, base: Base) -> bytes:
    return bracket(rng) + b"0" * (100 + rng.randrange(300)) + after_zeros(rng, base)


def above_by_one(rng: Rng, base: Base) -> bytes:
    return bracket(rng) + b"%d" % (base.rules + 1)


def above(rng: Rng, base: Base) -> bytes:
    """A number of up to nine digits that is too large."""
    return bracket(rng) + b"%d" % (base.rules + 2 + rng.randrange(10 ** (1 + rng.randrange(9))))


def that_wraps(rng: Rng, base: Base) -> bytes:
    """A number that some size of a word would take for a rule's."""
    bits = rng.choice([8, 16, 32, 64, 128, 128])
    times = rng.choice([1, 1, 2, 1 + rng.randrange(250)])
    return bracket(rng) + b"%d" % (times * 2 ** bits + rng.randrange(base.rules + 1))


def next_to_a_power(rng: Rng, base: Base) -> bytes:
    """Just under a power of 2, or 10 of them and the like."""
    near = 2 ** rng.choice([8, 16, 31, 32, 63, 64, 128]) - rng.choice([1, 2])
    return bracket(rng) + b"%d" % rng.choice([near, 10 * near, near // 10 * 10 + base.rules + 1])


def hundreds_of_digits(rng: Rng, base: Base) -> bytes:
    """A number of hundreds of digits; every other one would wrap at 64 bits."""
    value = 2 ** (64 * (6 + rng.randrange(20))) + rng.randrange(base.rules + 1)
    if rng.randrange(2):
        value = 10 ** (100 + rng.randrange(300)) + rng.randrange(2 ** 64)
    return bracket(rng) + b"%d" % value


def signed(rng: Rng, base: Base) -> bytes:
    return bracket(rng) + rng.choice([b"-", b"+"]) + number(rng, base)


def name_in_a_bracket(rng: Rng, base: Base) -> bytes:
    return bracket(rng) + rng.choice([rng.choice(base.names), b"S", b"a", b"x1", b"-"])


def more_after_a_number(rng: Rng, base: Base) -> bytes:
    more = rng.choice([b"a", b"-", b".", b",", b":", b"x1", b"e0", b"-1", b"=", b"S", b"_"])
    return bracket(rng) + number(rng, base) + more


def two_brackets(rng: Rng, base: Base) -> bytes:
    one, other = bracket(rng), bracket(rng)
    between, after = (rng.choice([b"", number(rng, base)]) for _ in range(2))
    return one + between + other + after


def bracket_behind(rng: Rng, base: Base) -> bytes:
    """A number or name with a bracket after it."""
    front = rng.choice([number(rng, base), rng.choice(base.names)])
    return front + bracket(rng) + rng.choice([b"", number(rng, base)])


def name_of_16(rng: Rng, base: Base) -> bytes:
    return (rng.choice(base.names) + random_name(rng, MAX_NAME + 1))[:MAX_NAME + 1]


def longer_name(rng: Rng, base: Base) -> bytes:
    more = MAX_NAME + 1 + rng.choice([0, 1, 15, 241, 400])
    return rng.choice(base.names) + random_name(rng, more)


def with_byte(rng: Rng, word: bytes, byte: int) -> bytes:
    """The word with a byte put in somewhere."""
    place = rng.randrange(len(word) + 1)
    return word[:place] + bytes([byte]) + word[place:]


def some_word(rng: Rng, base: Base) -> bytes:
    return random_words(rng, base, 1)[0]


def with_tab(rng: Rng, base: Base) -> bytes:
    """A tab in a word, or between two."""
    words = random_words(rng, base, 2)
    return rng.choice([b"\t".join(words), with_byte(rng, words[0], 9)])


def with_13(rng: Rng, base: Base) -> bytes:
    word = some_word(rng, base)
    return rng.choice([word + b"\r", with_byte(rng, word, 13)])


def with_0(rng: Rng, base: Base) -> bytes:
    word = some_word(rng, base)
    return rng.choice([word + b"\0", with_byte(rng, word, 0)])


def above_127(rng: Rng, base: Base) -> bytes:
    """A byte above 127; also a letter of UTF-8, and 128 above a byte of the word."""
    word = some_word(rng, base)
    place = rng.randrange(len(word))
    return rng.choice([
        with_byte(rng, word, 128 + rng.randrange(128)), word + "\u00e4".encode("utf-8"),
        word[:place] + bytes([128 + word[place]]) + word[place + 1:]])


def other_byte(rng: Rng, base: Base) -> bytes:
    """A byte that names do not have, in a name or between two."""
    return with_byte(rng, rng.choice(base.names), rng.choice(NAME_MARKS)) + rng.choice([b"", b"a"])


MALFORMED_WORDS: List[Callable[[Rng, Base], bytes]] = [
    bare_opening, bare_closing, leading_zeros, zeros_alone, hundreds_of_zeros, above_by_one,
    above, that_wraps, that_wraps, that_wraps, that_wraps, next_to_a_power, hundreds_of_digits,
    signed, name_in_a_bracket, more_after_a_number, two_brackets, bracket_behind, name_of_16,
    longer_name, with_tab, with_13, with_0, above_127, other_byte,
]


def put(rng: Rng, words: Words, word: bytes) -> Words:
    """The words with one put in somewhere."""
    place = rng.choice([0, len(words), rng.randrange(len(words) + 1)])
    return words[:place] + [word] + words[place:]


def with_bad_word(rng: Rng, good: Good, line: int) -> Good:
    """A malformed word on line 1 or 2."""
    bad = rng.choice(MALFORMED_WORDS)(rng, good.base)
    return with_words(good, line, put(rng, words_of(good, line), bad))


def malformed_words(rng: Rng) -> Iterator[Case]:
    """Each kind of malformed word, on either line."""
    for kind in MALFORMED_WORDS:
        for place in range(IN_WORDS):
            good, line = some_good(rng), 1 + place % 2
            bad = with_words(good, line, put(rng, words_of(good, line), kind(rng, good.base)))
            yield Case(good.base.text, good_lines(bad), beside_a_fault(rng, bad))


# Spaces, keys and equals signs.

def spaces(rng: Rng) -> Iterator[Case]:
    """Spaces first, last, double and alone, on either line."""
    for place in range(EACH):
        good, line = some_good(rng, 2), 1 + place % 2
        words = words_of(good, line)
        value, inner = b" ".join(words), 1 + rng.randrange(len(words) - 1)
        more = b" " * rng.choice([1, 1, 2, 5])
        for bad in (more + value, value + more, more,
                    b" ".join(words[:inner]) + more + b" " + b" ".join(words[inner:])):
            yield Case(good.base.text, with_value(good, line, bad), beside_a_fault(rng, good))


def keys_with_slips(key: bytes) -> List[bytes]:
    """The key in wrong case or with spaces."""
    return [key.upper(), key.capitalize(), key[:-1] + key[-1:].upper(), b" " + key, key + b" ",
            key[:1] + b" " + key[1:], b"  " + key]


def other_keys(key: bytes) -> List[bytes]:
    """Keys that are none."""
    return [key[:-1], key[1:], key + b"s", key + key, b"", b"x", key + b"\0", b"\0" + key,
            key + b"\r", b"\xef\xbb\xbf" + key, b"rule", b"terminals", b"states", b"verdict",
            key + b":", key + b",", b"(" + key, key + b"-", b"left-right"]


def keys(rng: Rng) -> Iterator[Case]:
    """Keys in wrong case, with spaces, unknown; lines without an equals sign, or with two."""
    for place in range(EACH):
        good, line = some_good(rng), 1 + place % 2
        key, value = KEYS[line - 1], b" ".join(words_of(good, line))
        wrong = [rng.choice(some(key)) + b"=" + value for some in (keys_with_slips, other_keys)]
        whole = key + b"=" + value
        wrong.append(rng.choice([
            key, key + value, key + b" " + value, key + b":" + value, value or b" "]))
        wrong.append(rng.choice([key + b"=" + whole, key + b"==" + value, whole + b"="]))
        for bad in wrong:
            yield Case(good.base.text, with_line(good, line, bad), beside_a_fault(rng, good))


def exchanged(rng: Rng) -> Iterator[Case]:
    """`left=` twice, `right=` twice, the lines exchanged; the text and the lines exchanged."""
    for _ in range(EACH):
        good = some_good(rng)
        left, right = good_lines(good).split(b"\n")[:2]
        for lines in ([left, b"left=" + right[6:]], [b"right=" + left[5:], right], [right, left]):
            yield Case(good.base.text, join_lines(lines), beside_a_fault(rng, good))
        text = rng.choice([good_lines(good), good.base.text])
        yield Case(text, good.base.text, beside_a_fault(rng, good))


# Missing lines, and more lines.

def missing(rng: Rng) -> Iterator[Case]:
    """No byte, no byte 10, no second line, a cut one; blank lines; byte 13."""
    for _ in range(EACH):
        good = some_good(rng)
        lines = good_lines(good)
        first = lines.index(b"\n") + 1
        cut = first + 1 + rng.randrange(len(lines) - first - 1)
        others = [lines.replace(b"\n", rng.choice([b"", b" ", b"\r", b"\0"])), lines[:cut],
                  lines[first:], lines.replace(b"\n", b"\r\n"), b"\n" * rng.choice([1, 2, 3])]
        blank = [b"\n" + lines, lines[:first] + b"\n" + lines[first:]]
        for bad in (b"", lines[:1 + rng.randrange(first - 1)], lines[:first], lines[:-1],
                    rng.choice(blank), rng.choice(others)):
            yield Case(good.base.text, bad, beside_a_fault(rng, good))


def more_lines(rng: Rng) -> Iterator[Case]:
    """Something past line 2: a byte 10, a line, a part of one, the lines again."""
    for _ in range(EACH):
        good = some_good(rng)
        lines = good_lines(good)
        again = b"right=%s\n" % b" ".join(good.right)
        for past in (b"\n" * rng.choice([1, 1, 1, 2, 3]), lines,
                     rng.choice([again, b"left=\n", b"right=\n", b"a\n"]),
                     rng.choice([b" ", b"\0", b"\r", b"a", b"left=", b"=", b"\xff", b"(0"])):
            yield Case(good.base.text, lines + past, beside_a_fault(rng, good))


# Unknown names.

def unknown_names(rng: Rng, base: Base) -> List[bytes]:
    """Names that the grammar does not declare in any case, most of them like one that it does."""
    name = rng.choice(base.names)
    found = [name[:-1], name[1:], (name + random_name(rng, 3))[:MAX_NAME],
             random_name(rng, MAX_NAME), random_name(rng, 1 + rng.randrange(MAX_NAME)),
             number(rng, base), b"%d" % (base.rules + 1 + rng.randrange(200)),
             b"0%d" % base.rules, b"left", b"right"]
    declared = {name.lower() for name in base.names}
    return [some for some in found if some and some.lower() not in declared]


def with_unknown(rng: Rng, good: Good, line: int) -> Good:
    """An unknown name on line 1 or 2."""
    name = rng.choice(unknown_names(rng, good.base))
    return with_words(good, line, put(rng, words_of(good, line), name))


def unknown(rng: Rng) -> Iterator[Case]:
    """Every kind of unknown name, on either line."""
    for place in range(36):
        good, line = some_good(rng), 1 + place % 2
        for name in unknown_names(rng, good.base):
            bad = with_words(good, line, put(rng, words_of(good, line), name))
            yield Case(good.base.text, good_lines(bad), beside_a_fault(rng, bad))


# Several faults.

def both_in_a_line(rng: Rng) -> Iterator[Case]:
    """16 and 17 in one line, in either order."""
    for place in range(4 * EACH):
        good, line = some_good(rng), 1 + place % 2
        words = words_of(with_unknown(rng, good, line), line)
        bad = rng.choice(MALFORMED_WORDS)(rng, good.base)
        words = words + [bad] if place % 4 < 2 else [bad] + words
        good = with_words(good, line, words)
        yield Case(good.base.text, good_lines(good), beside_a_fault(rng, good))


def both_lines(rng: Rng) -> Iterator[Case]:
    """16 or 17 in line 1, and 16 or 17 in line 2."""
    faults = [with_bad_word, with_unknown]
    for place in range(4 * EACH):
        good = faults[place % 2](rng, some_good(rng), 1)
        good = faults[place // 2 % 2](rng, good, 2)
        yield Case(good.base.text, good_lines(good), beside_a_fault(rng, good))


def unknown_and_lines(rng: Rng) -> Iterator[Case]:
    """17 in line 1 or 2, and a line missing, cut or too many."""
    for _ in range(EACH):
        good = some_good(rng)
        first, second = (with_unknown(rng, good, line) for line in (1, 2))
        lines = good_lines(first)
        end = lines.index(b"\n") + 1
        past = rng.choice([b"\n", b"a", b"left=\n", b" ", good_lines(good)])
        for bad in (lines[:end], lines[:end] + rng.choice([b"right", b"right=", b"\n", b"left=\n"]),
                    lines + past, good_lines(second) + past):
            yield Case(good.base.text, bad, beside_a_fault(rng, first))


# The grammar's own faults.

def bad_lines(rng: Rng, good: Good) -> bytes:
    """Lines that are malformed whatever the grammar is."""
    lines = good_lines(good)
    if rng.randrange(10) == 0:
        return b""
    left, right, _ = lines.split(b"\n")
    value = rng.choice([b" ", b"(", b"(00", b"a  a"])
    return rng.choice([lines[:-1], lines + b"\n", join_lines([right, left]),
                       with_value(good, rng.choice([1, 2]), value)])


def faulty_texts(rng: Rng, lines: List[bytes]) -> Dict[str, List[bytes]]:
    """By kind of refusal texts of which one is taken."""
    text = join_lines(lines)
    found = {fault.__name__: [join_lines(fault(rng, lines))] for fault in FAULTS}
    found["lists"] = [found.pop("many_terminals")[0], found.pop("no_nonterminals")[0]]
    found["16"] = [found.pop("no_equals")[0], found.pop("long_name")[0], text[:-1], text + b"\n"]
    found["16 at 1"] = [b"", b"\n", text[1:], spoiled(rng, lines[0]) + text[len(lines[0]):],
                        text.replace(b"\n", b"\r\n"), lines[0]]
    found["16 at 2"] = [lines[0] + b"\n", lines[0] + b"\n\n", lines[0] + b"\n" + text,
                        join_lines(lines[:1] + [spoiled(rng, lines[1])] + lines[2:])]
    return found


def faulty_grammars(rng: Rng) -> Iterator[Case]:
    """Each cause of the reader, with no rows, with malformed lines, and with neither fault."""
    for place in range(EACH):
        grammar = named_with_rules(rng)
        base = base_of(grammar)
        good = Good(base, *(random_words(rng, base, 1 + some_length(rng)) for _ in range(2)))
        for texts in faulty_texts(rng, lines_of(grammar)).values():
            yield Case(rng.choice(texts), good_lines(good), LentStrings(0, 0))
            yield Case(rng.choice(texts), bad_lines(rng, good), beside_a_fault(rng, good))
            if place % 5 == 0:
                yield Case(rng.choice(texts), good_lines(good), exact(good))


def long_texts(rng: Rng) -> Iterator[Case]:
    """Texts that are too long; else good, or at fault, or no lines at all."""
    for size in [MAX_TEXT + 1] * 11 + [MAX_BYTES]:
        good = some_good(rng, 1)
        text = rng.choice([good.base.text, good.base.text[:-1], b""])
        text += rng.choice([b"rule=%s:\n" % good.base.names[-1], b"\n", b"a", b"\0"]) * size
        yield Case(text[:size], rng.choice([good_lines(good), bad_lines(rng, good)]),
                   beside_a_fault(rng, good))


# No sentence.

def without_a_sentence(rng: Rng) -> Iterator[Case]:
    """No sentence, with lines of its letters, rows long enough or none; with bad lines."""
    for table in [*sentenceless(rng, 14), *large_sentenceless(rng, 5)]:
        base = base_of(named_table(rng, table))
        good = Good(base, *(random_words(rng, base, 1 + some_length(rng)) for _ in range(2)))
        yield Case(base.text, good_lines(good), rng.choice([exact(good), LentStrings(0, 0)]))
        yield Case(base.text, bad_lines(rng, good), beside_a_fault(rng, good))


def nearly_without(rng: Rng) -> Iterator[Case]:
    """Grammars that nearly lack a sentence: good lines, unknown names."""
    for table in nearly_sentenceless(rng, 18):
        base = base_of(named_table(rng, table))
        good = Good(base, *(random_words(rng, base, 1 + some_length(rng)) for _ in range(2)))
        yield Case(base.text, good_lines(good), any_lent(rng, good))
        bad = with_unknown(rng, good, 1 + rng.randrange(2))
        yield Case(base.text, good_lines(bad), beside_a_fault(rng, bad))


# Any damage.

def damaged(rng: Rng) -> Iterator[Case]:
    """Good lines with one or two stretches of bytes changed."""
    for _ in range(100):
        good = some_good(rng)
        lines = good_lines(good)
        for _ in range(1 + rng.randrange(2)):
            lines = damage(rng, lines)
        yield Case(good.base.text, lines, any_lent(rng, good))


def noise(rng: Rng) -> Iterator[Case]:
    """Pieces of lines in any order, and plain random bytes."""
    for _ in range(40):
        good = some_good(rng, 1)
        pieces = [b"left=", b"right=", b"\n", b"\n", b" ", b" ", b"=", b"(", b")", b"0", b"\r"]
        pieces += good.left[:6] + good.right[:6]
        lines = b"".join(rng.choice(pieces) for _ in range(rng.randrange(12)))
        front = rng.choice([b"", b"left=", b"left=\nright=", b"left=\n"])
        yield Case(good.base.text, front + lines + rng.choice([b"", b"\n"]), any_lent(rng, good))
        lines = bytes(rng.randrange(256) for _ in range(rng.randrange(40)))
        yield Case(good.base.text, front + lines + rng.choice([b"", b"\n"]), any_lent(rng, good))


def all_bytes(rng: Rng) -> Iterator[Case]:
    """Every byte as a word or in one, on either line."""
    for value in range(256):
        good, line = some_good(rng), 1 + value % 2
        form = rng.choice([b"%c", b"x%c", b"%cx", b"x%cx", b"(%c", b"(0%c", b")%c0"])
        word = form % bytes([value])
        bad = with_words(good, line, put(rng, words_of(good, line), word))
        yield Case(good.base.text, good_lines(bad), any_lent(rng, bad))


# Case.

def respelled_base(rng: Rng, grammar: Named) -> Base:
    """A grammar whose text uses its names in another case."""
    text = join_lines(respelled(rng, lines_of(grammar), in_another_case))
    return Base(text, len(grammar.rules), grammar.names)


def lettered_base(rng: Rng) -> Base:
    """A small grammar whose names have a letter each; every other text uses them in another case."""
    grammar = lettered(rng)
    return respelled_base(rng, grammar) if rng.randrange(2) else base_of(grammar)


def words_in_another_case(rng: Rng, words: Words) -> Words:
    """Names in another case, all of them or some; rules as they are."""
    every = rng.randrange(3) > 0
    return [word if word[:1] in (b"(", b")") or not (every or rng.randrange(2))
            else in_another_case(rng, word) for word in words]


def names_in_another_case(rng: Rng) -> Iterator[Case]:
    """Names in another case than declared, on one line or both."""
    for place in range(3 * EACH):
        base = lettered_base(rng)
        good = Good(base, *(random_words(rng, base, 1 + some_length(rng)) for _ in range(2)))
        for line in [[1], [2], [1, 2]][place % 3]:
            good = with_words(good, line, words_in_another_case(rng, words_of(good, line)))
        yield Case(base.text, good_lines(good), any_lent(rng, good))


def own_lines_in_another_case(rng: Rng) -> Iterator[Case]:
    """What the program adds, its names in another case; a text that uses them so."""
    found = 0
    while found < 2 * EACH:
        grammar = lettered(rng) if rng.randrange(3) else grown(rng, 4, GROWN)
        base = respelled_base(rng, grammar)
        lines = reading_lines(named_text(base.text))
        values = [line.partition(b"=")[2].split(b" ") for line in lines.split(b"\n")[:2]] if lines else []
        if any(letters_in(word) for words in values for word in words):
            found += 1
            good = Good(base, *(words_in_another_case(rng, words) for words in values))
            yield Case(base.text, good_lines(good), any_lent(rng, good))
            yield Case(base.text, lines, exact(good))


def nearly_declared(rng: Rng) -> Iterator[Case]:
    """A name that differs from a declared one by 32 in a digit or hyphen, known or not."""
    for place in range(2 * EACH):
        base = lettered_base(rng)
        if not any(map(places_apart, base.names)):
            continue
        name = rng.choice([name for name in base.names if places_apart(name)])
        good, line = Good(base, *(random_words(rng, base, some_length(rng)) for _ in range(2))), 1 + place % 2
        near = with_words(good, line, put(rng, words_of(good, line), apart(rng, name)))
        yield Case(base.text, good_lines(near), beside_a_fault(rng, near))
    for _ in range(2 * EACH):
        grammar = lettered(rng)
        names = lettered_names(rng, len(grammar.names))
        names[0] = (b"%c-7" % rng.choice(b"QAx") + names[0])[:MAX_NAME]
        names[-1] = apart(rng, names[0])
        base = base_of(grammar._replace(names=names))
        good = Good(base, [names[0], in_another_case(rng, names[-1])], [names[-1], names[0]])
        yield Case(base.text, good_lines(good), any_lent(rng, good))


def next_to_the_letters(rng: Rng) -> Iterator[Case]:
    """Bytes 64, 91, 96 and 123 in a word, on either line."""
    for place in range(EACH):
        base = lettered_base(rng)
        good, line = Good(base, *(random_words(rng, base, some_length(rng)) for _ in range(2))), 1 + place % 2
        word = with_byte(rng, rng.choice(base.names), rng.choice(NEXT_TO_LETTERS))[:MAX_NAME]
        if not set(word) & set(NEXT_TO_LETTERS):
            word = b"@"
        bad = with_words(good, line, put(rng, words_of(good, line), word))
        yield Case(base.text, good_lines(bad), beside_a_fault(rng, bad))


def keys_in_another_case(rng: Rng) -> Iterator[Case]:
    """A key in another case, its names as they are or in another case too."""
    for place in range(EACH):
        base, line = lettered_base(rng), 1 + place % 2
        good = Good(base, *(random_words(rng, base, some_length(rng)) for _ in range(2)))
        words = words_of(good, line)
        if rng.randrange(2):
            words = words_in_another_case(rng, words)
        bad = in_another_case(rng, KEYS[line - 1]) + b"=" + b" ".join(words)
        yield Case(base.text, with_line(good, line, bad), beside_a_fault(rng, good))


def grammars_with_a_name_in_two_cases(rng: Rng) -> Iterator[Case]:
    """A grammar that declares a name in two cases, on one line or across both."""
    for place in range(EACH):
        grammar = lettered(rng)
        base, lines = base_of(grammar), lines_of(grammar)
        good = Good(base, *(random_words(rng, base, some_length(rng)) for _ in range(2)))
        lines[place % 2] += b"," + in_another_case(rng, rng.choice(base.names[:grammar.t]))
        yield Case(join_lines(lines), rng.choice([good_lines(good), bad_lines(rng, good)]),
                   beside_a_fault(rng, good))


GROUPS: List[Group] = [
    own_lines, random_strings, empty_strings, long_strings, long_lines, at_the_limits, lent_rows,
    malformed_words, spaces, keys, exchanged, missing, more_lines, unknown, both_in_a_line,
    both_lines, unknown_and_lines, faulty_grammars, long_texts, damaged, noise, all_bytes,
    without_a_sentence, nearly_without,
    names_in_another_case, own_lines_in_another_case, nearly_declared, next_to_the_letters,
    keys_in_another_case, grammars_with_a_name_in_two_cases,
]


def all_cases() -> Iterator[Case]:
    """Every group's cases."""
    return cases_of(GROUPS, SEED)
