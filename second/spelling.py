"""Names in another case, names that nearly are the same, and grammars whose names have letters.

Document 02, [9]: only the case of ASCII letters does not count. Digits and hyphens lie
32 below some capital letters, as capitals lie 32 below small letters; they stay apart.
"""

from typing import Callable, Dict, Iterator, List

from case_files import Rng
from named_grammars import Named, random_length, random_name, small_named

CASE = 32                         # between a capital letter and its small one
NEXT_TO_LETTERS = b"@[`{"         # 64, 91, 96, 123: no bytes of names
# By byte one that is 32 above or below and is not the same letter.
APART: Dict[int, int] = {byte: byte + CASE for byte in b"-0123456789"}
APART.update([(above, byte) for byte, above in APART.items()])

Respell = Callable[[Rng, bytes], bytes]


def letters_in(name: bytes) -> List[int]:
    """The places of the letters."""
    return [place for place in range(len(name)) if name[place:place + 1].isalpha()]


def in_another_case(rng: Rng, name: bytes) -> bytes:
    """The name with the case of its first letter, its last, all or some changed; as it is without letters."""
    places = letters_in(name)
    if not places:
        return name
    some = rng.sample(places, 1 + rng.randrange(len(places)))
    chosen = rng.choice([places[:1], places[-1:], places, some])
    return bytes(byte ^ CASE if place in chosen else byte for place, byte in enumerate(name))


def places_apart(name: bytes) -> List[int]:
    """The places of bytes that `APART` has."""
    return [place for place, byte in enumerate(name) if byte in APART]


def apart(rng: Rng, name: bytes) -> bytes:
    """The name with a digit, hyphen or capital replaced by the byte 32 above or below; as it is without one."""
    places = places_apart(name)
    if not places:
        return name
    chosen = rng.choice(places)
    return name[:chosen] + bytes([APART[name[chosen]]]) + name[chosen + 1:]


def lettered_names(rng: Rng, count: int) -> List[bytes]:
    """Different names that have a letter each; no two differ in case alone."""
    names: Dict[bytes, bytes] = {}
    while len(names) < count:
        name = random_name(rng, random_length(rng))
        if letters_in(name):
            names.setdefault(name.lower(), name)
    return list(names.values())


def lettered(rng: Rng, most: int = 6) -> Named:
    """A small grammar whose names have a letter each, with a terminal and a rule at least."""
    while True:
        grammar = small_named(rng, most)
        if grammar.t > 0 and grammar.rules:
            return grammar._replace(names=lettered_names(rng, len(grammar.names)))


def respelled_rule(rng: Rng, line: bytes, respell: Respell, left: bool = True, right: bool = True) -> bytes:
    """A rule's line with the names of these sides respelled."""
    front, _, back = line.partition(b":")
    key, _, name = front.partition(b"=")
    name = respell(rng, name) if left else name
    words = back.split(b" ")[1:]
    words = [respell(rng, word) for word in words] if right else words
    return key + b"=" + name + b":" + b"".join(b" " + word for word in words)


def only(names: List[bytes], respell: Respell) -> Respell:
    """Respells these names alone."""
    return lambda rng, name: respell(rng, name) if name in names else name


def some_uses(respell: Respell) -> Respell:
    """Respells some names."""
    return lambda rng, name: respell(rng, name) if rng.randrange(3) == 0 else name


def ways_to_respell(grammar: Named) -> Iterator[Respell]:
    """Every use, those of terminals, those of nonterminals, and some."""
    yield in_another_case
    yield only(grammar.names[:grammar.t], in_another_case)
    yield only(grammar.names[grammar.t:], in_another_case)
    yield some_uses(in_another_case)


def respelled(rng: Rng, lines: List[bytes], respell: Respell) -> List[bytes]:
    """A text's lines with the uses on its rule lines respelled."""
    return lines[:2] + [respelled_rule(rng, line, respell) for line in lines[2:]]
