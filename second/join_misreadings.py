"""What document 02's [10] could be taken for.

A misreading gives another outcome of a join: other lists, rules, spellings or parts, or
refusals in another order. A case that is answered otherwise in one of them tells it from
[10], and is counted for that.
"""

from typing import Callable, Dict, List, Optional, Sequence

from join_codes import limit_fault
from joining import (
    MODULE, NONTERMINALS_LINE, OTHER_KIND, TERMINALS_LINE, Declared, Joined, NamedRule, Outcome,
    Part, Source, join_texts, joined_list, joined_rules, other_kind, read_alone, read_joined,
    source_of, sources,
)
from tables import MAX_NONTERMINALS, MAX_TERMINALS, TOO_MANY_RULES, TOO_MANY_STATES, Refusal
from text import (
    AMPLE, COLON, COMMA, END, EQUALS, NONTERMINALS, RULE, SPACE, TERMINALS, UNKNOWN_NAME, Name,
    read_list, read_text, split_lines, without_case,
)

Misreading = Callable[[bytes, bytes], Outcome]
Names = Sequence[Declared]


def of_sources(build: Callable[[Source, Source], Outcome]) -> Misreading:
    """Both texts and 20 as they are, and then another join."""
    def outcome(robot: bytes, module: bytes) -> Outcome:
        found = sources(robot, module)
        if isinstance(found, Refusal):
            return found
        refusal = other_kind(*found)
        return build(*found) if refusal is None else refusal
    return outcome


def lengths_of(rules: Sequence[NamedRule]) -> List[int]:
    return [len(rule.right) for rule in rules]


# Other lists and rules.

def names_first(robot: Source, module: Source) -> Outcome:
    """The module's lists, then names the robot adds."""
    return read_joined(joined_list(module.terminals, robot.terminals),
                       joined_list(module.nonterminals, robot.nonterminals),
                       joined_rules(robot.rules, module.rules))


def with_rules(rules: Callable[[Source, Source], List[NamedRule]]) -> Misreading:
    """The lists as they are, and other rules."""
    return of_sources(lambda robot, module: read_joined(
        joined_list(robot.terminals, module.terminals),
        joined_list(robot.nonterminals, module.nonterminals), rules(robot, module)))


def rules_first(robot: Source, module: Source) -> List[NamedRule]:
    """The module's rules, then those of the robot that are not already there."""
    return joined_rules(module.rules, robot.rules)


def every_rule(robot: Source, module: Source) -> List[NamedRule]:
    """The module's rules, also those that are already there."""
    return robot.rules + module.rules


def numbered(source: Source) -> List[tuple]:
    """The rules by the places of their names in the text's own lists."""
    places = {without_case(declared.name): (kind, place)
              for kind, names in enumerate((source.terminals, source.nonterminals))
              for place, declared in enumerate(names)}
    return [tuple(places[without_case(name)] for name in (rule.left, *rule.right))
            for rule in source.rules]


def rules_by_code(robot: Source, module: Source) -> List[NamedRule]:
    """A rule is already there if its codes are, each by its own text."""
    there = set(numbered(robot))
    return robot.rules + [rule for rule, codes in zip(module.rules, numbered(module))
                          if codes not in there]


def module_start(robot: Source, module: Source) -> Outcome:
    """The start is the module's."""
    nonterminals = joined_list(robot.nonterminals, module.nonterminals)
    start = without_case(module.nonterminals[0].name)
    nonterminals.sort(key=lambda declared: without_case(declared.name) != start)
    return read_joined(joined_list(robot.terminals, module.terminals), nonterminals,
                       joined_rules(robot.rules, module.rules))


# Names and spellings.

def byte_for_byte(robot: bytes, module: bytes) -> Outcome:
    """The names of the two texts are compared byte for byte."""
    found = sources(robot, module)
    if isinstance(found, Refusal):
        return found
    first, second = found
    def names(declared: Names) -> set:
        return {name for name, _ in declared}
    def added(own: Names, others: Names) -> List[Declared]:
        return [*own, *(declared for declared in others if declared.name not in names(own))]
    if names(second.terminals) & names(first.nonterminals):
        return Refusal(OTHER_KIND, TERMINALS_LINE)
    if names(second.nonterminals) & names(first.terminals):
        return Refusal(OTHER_KIND, NONTERMINALS_LINE)
    rules = first.rules + [rule for rule in second.rules if rule not in first.rules]
    return read_joined(added(first.terminals, second.terminals),
                       added(first.nonterminals, second.nonterminals), rules)


def module_spelling(robot: Source, module: Source) -> Outcome:
    """The module's declaration is taken where both declare a name."""
    own = {without_case(declared.name): declared
           for declared in module.terminals + module.nonterminals}
    lists = [[own.get(without_case(declared.name), declared) for declared in names]
             for names in (joined_list(robot.terminals, module.terminals),
                           joined_list(robot.nonterminals, module.nonterminals))]
    return read_joined(*lists, joined_rules(robot.rules, module.rules))


def as_used(robot: bytes, module: bytes) -> Outcome:
    """Rules are written as the texts spell them."""
    joined = join_texts(robot, module)
    if isinstance(joined, Refusal):
        return joined
    lines = [key + EQUALS + COMMA.join(declared.name for declared in names) for key, names in (
        (TERMINALS, joined.terminals), (NONTERMINALS, joined.nonterminals))]
    lines += [RULE + EQUALS + left + COLON + b"".join(SPACE + name for name in right)
              for left, right in joined.rules]
    return joined._replace(text=b"".join(line + END for line in lines))


def text_by_text(robot: bytes, module: bytes) -> Outcome:
    """Symbol numbers run over the robot's symbols, then over those that the module adds."""
    joined = join_texts(robot, module)
    if isinstance(joined, Refusal):
        return joined
    names = joined.terminals + joined.nonterminals
    return joined._replace(
        terminals=[declared for declared in names if declared.part.text != MODULE],
        nonterminals=[declared for declared in names if declared.part.text == MODULE])


# Refusals.

def crossed_at(lines: Dict[int, int]) -> Misreading:
    """20 at another line."""
    def outcome(robot: bytes, module: bytes) -> Outcome:
        joined = join_texts(robot, module)
        if isinstance(joined, Refusal) and joined.cause == OTHER_KIND:
            return Refusal(OTHER_KIND, lines[joined.position])
        return joined
    return outcome


def crossed_first(robot: bytes, module: bytes) -> Outcome:
    """20 as soon as the module's lists are read, before its other faults."""
    first = read_text(robot, AMPLE)
    if isinstance(first, Refusal):
        return first
    lines = split_lines(module)
    terminals = read_list(lines, 0, [], 0, MAX_TERMINALS)
    if not isinstance(terminals, Refusal):
        nonterminals = read_list(lines, 1, terminals, 1, MAX_NONTERMINALS)
        nonterminals = [] if isinstance(nonterminals, Refusal) else nonterminals
        def declared(names: Sequence[Name]) -> List[Declared]:
            return [Declared(name, Part(MODULE, start, len(name))) for start, name in names]
        lists = Source(declared(terminals), declared(nonterminals), [])
        refusal = other_kind(source_of(1, robot, first), lists)
        if refusal is not None:
            return refusal
    return join_texts(robot, module)


def crossed_last(robot: bytes, module: bytes) -> Outcome:
    """20 after 1, 7 and 8 of the joined text."""
    joined = join_texts(robot, module)
    if isinstance(joined, Joined) or joined.cause != OTHER_KIND:
        return joined
    first, second = sources(robot, module)
    return limit_fault(
        len(joined_list(first.terminals, second.terminals)),
        len(joined_list(first.nonterminals, second.nonterminals)),
        lengths_of(joined_rules(first.rules, second.rules))) or joined


def robots_names(robot: bytes, module: bytes) -> Outcome:
    """A module's rules may use names that the robot's text alone declares."""
    joined = join_texts(robot, module)
    if isinstance(joined, Joined) or joined.cause != UNKNOWN_NAME or isinstance(read_text(robot, AMPLE), Refusal):
        return joined
    lines, robots = module.split(END), robot.split(END)
    for place in (0, 1):
        names = [name for name in robots[place].partition(EQUALS)[2].split(COMMA) if name]
        own = {without_case(name) for line in lines[:2] for name in line.partition(EQUALS)[2].split(COMMA)}
        more = [name for name in names if without_case(name) not in own]
        lines[place] += (COMMA if lines[place][-1:] != EQUALS else b"") + COMMA.join(more) if more else b""
    return join_texts(robot, END.join(lines))


def module_first(robot: bytes, module: bytes) -> Outcome:
    """The module's faults come before the robot's."""
    second = read_alone(module)
    return second if isinstance(second, Refusal) else join_texts(robot, module)


def module_sentence(robot: bytes, module: bytes) -> Outcome:
    """The module may not lack sentences."""
    first, second = (read_text(text, AMPLE) for text in (robot, module))
    return second if isinstance(second, Refusal) and not isinstance(first, Refusal) else (
        join_texts(robot, module))


def robot_without(robot: bytes, module: bytes) -> Outcome:
    """The robot's text may lack sentences, if the joined one has some."""
    first, second = read_alone(robot), read_alone(module)
    if isinstance(first, Refusal) or isinstance(second, Refusal):
        return join_texts(robot, module)
    found = source_of(1, robot, first), source_of(2, module, second)
    refusal = other_kind(*found)
    if refusal is not None:
        return refusal
    return read_joined(joined_list(found[0].terminals, found[1].terminals),
                       joined_list(found[0].nonterminals, found[1].nonterminals),
                       joined_rules(found[0].rules, found[1].rules))


def shared_names_twice(robot: Source, module: Source) -> Optional[Refusal]:
    """Names that both declare are counted twice."""
    return limit_fault(len(robot.terminals + module.terminals),
                       len(robot.nonterminals + module.nonterminals), [])


def equal_rules_too(robot: Source, module: Source) -> Optional[Refusal]:
    """Rules that are already there count for 7 and 8."""
    return limit_fault(0, 1, lengths_of(robot.rules + module.rules))


def counted(fault: Callable[[Source, Source], Optional[Refusal]]) -> Misreading:
    """More is counted for 1, 7 or 8."""
    def outcome(robot: bytes, module: bytes) -> Outcome:
        joined = join_texts(robot, module)
        if isinstance(joined, Refusal):
            return joined
        return fault(*sources(robot, module)) or joined
    return outcome


def from_robots_end(robot: bytes, module: bytes) -> Outcome:
    """7 and 8 at offsets that are counted from the end of the robot's table."""
    joined = join_texts(robot, module)
    if isinstance(joined, Joined) or joined.cause not in (TOO_MANY_RULES, TOO_MANY_STATES):
        return joined
    first = read_text(robot, AMPLE)
    if isinstance(first, Refusal) or isinstance(read_alone(module), Refusal):
        return joined
    return joined._replace(position=joined.position - len(first.table))


AT_LIMITS: Dict[str, Misreading] = {
    "20-comes-after-1-7-and-8": crossed_last,
    "shared-names-are-counted-twice": counted(shared_names_twice),
    "equal-rules-are-counted": counted(equal_rules_too),
    "offsets-are-counted-from-the-robots-end": from_robots_end,
}
MISREADINGS: Dict[str, Misreading] = {
    "the-modules-names-come-first": of_sources(names_first),
    "names-are-compared-byte-for-byte": byte_for_byte,
    "the-modules-rules-come-first": with_rules(rules_first),
    "rules-that-are-there-are-added-again": with_rules(every_rule),
    "rules-are-compared-by-each-texts-codes": with_rules(rules_by_code),
    "the-start-is-the-modules": of_sources(module_start),
    "the-modules-spelling-is-taken": of_sources(module_spelling),
    "rules-are-written-as-they-were-spelled": as_used,
    "symbols-are-numbered-text-by-text": text_by_text,
    "20-is-at-2-for-a-terminal": crossed_at({1: 2, 2: 2}),
    "20-is-at-the-robots-line": crossed_at({1: 2, 2: 1}),
    "20-comes-before-the-modules-faults": crossed_first,
    "the-modules-faults-come-first": module_first,
    "a-module-may-use-the-robots-names": robots_names,
    "a-module-needs-a-sentence": module_sentence,
    "the-robot-may-lack-sentences": robot_without,
    **AT_LIMITS,
}
