"""Tests of by_rules/conflicts.py: the cases, their examples, those that cfglint shows, their definitions, and other kinds of files."""
import os
import random
import sys

TOOLS = os.path.dirname(os.path.dirname(os.path.realpath(__file__)))
sys.path.insert(0, TOOLS)
from by_rules.bison_cases import cases_of
from by_rules.bison_tree import read_bison
from by_rules.conflict_examples import derives, example, fault
from by_rules.conflict_findings import clashes_of, plain
from by_rules.conflict_lines import lines_of
from by_rules.conflicts import Conflicts
from by_rules.shown_examples import example as shown_example
from by_rules.validation import errors_of
from modules.conflict_texts import ConflictTexts

CASES = cases_of(f"{TOOLS}/by_rules/conflict_cases.txt")
# how many lists of derivations are looked at, and how long they may be
LISTS, LONGEST = 2500, 9


def conflicts_of(text):
    return Conflicts(read_bison(text)[0])


def test_cases(_):
    assert len(CASES) > 30, f"{len(CASES)} cases"
    for case in CASES:
        assert lines_of(case.text) == case.result, f"{case.name}: {lines_of(case.text)}"


def faults(conflicts):
    """What is wrong with the examples."""
    for it in conflicts.conflicts:
        for other in range(1, 2 if it.is_shift else len(it.reductions)):
            yield fault(conflicts, it, example(conflicts, it, other))


def test_examples(_):
    texts = ConflictTexts(random.Random(1))
    for text in [*(it.text for it in CASES), *(texts.make().encode() for _ in range(50))]:
        found = [it for it in faults(conflicts_of(text)) if it]
        assert not found, f"{text.decode()}: {found[0]}"


def shown_fault(conflicts, clash):
    """What is wrong with the example that is shown of a clash, or None."""
    grammar, sides = conflicts.grammar, shown_example(conflicts, clash)
    (prefix, _), (other_prefix, _) = sides
    number = clash.production
    for (before, rest), (production, read) in zip(sides, [(number, len(grammar.productions[number].symbols)), clash.other]):
        symbols = [*before, *rest, grammar.end]
        above = [*before[:len(before) - read], grammar.productions[production].rule,
                 *symbols[len(before) + len(grammar.own_symbols(production)) - read:]]
        if conflicts.states.path(0, before)[-1] != clash.state:
            return "the prefix doesn't lead to the state"
        if symbols[len(before)] != grammar.tokens[clash.token]:
            return "the token doesn't come after the prefix"
        if not derives(grammar, symbols) or production != grammar.added and not derives(grammar, above):
            return "a list isn't derived"
    return "the prefixes differ" if clash.shifts and prefix != other_prefix else None


def test_shown_examples(_):
    texts = ConflictTexts(random.Random(2))
    count = 0
    for text in [*(it.text for it in CASES), *(texts.make().encode() for _ in range(100))]:
        conflicts = Conflicts(plain(read_bison(text)[0]))
        for clash in clashes_of(conflicts)[:20]:
            found, count = shown_fault(conflicts, clash), count + 1
            assert not found, f"{text.decode()}: {found}"
    assert count > 100, f"{count} examples"


def derived(grammar):
    """What rightmost derivations reach, as δ, A and w, the first lists that they reach."""
    todo = [(grammar.start,)] if grammar.start in grammar.of_rule else []
    known = set(todo)
    for symbols in todo:
        at = max((index for index, it in enumerate(symbols) if not it[0]), default=None)
        if at is None:
            continue
        yield symbols[:at], symbols[at], symbols[at + 1:]
        for number in grammar.of_rule[symbols[at]]:
            new = (*symbols[:at], *grammar.productions[number].symbols, *symbols[at + 1:])
            if new not in known and len(new) <= LONGEST and len(todo) < LISTS:
                known.add(new)
                todo.append(new)


def by_derivations(conflicts):
    """For each state the items that are valid, and the productions with the tokens that look at them."""
    grammar, states = conflicts.grammar, conflicts.states
    items, looks = ([set() for _ in states.items] for _ in range(2))
    for prefix, rule, rest in derived(grammar):
        for number in grammar.of_rule[rule]:
            path = states.path(0, [*prefix, *grammar.productions[number].symbols])[len(prefix):]
            for read, state in enumerate(path):
                items[state].add((number, read))
            if rest:
                looks[path[-1]].add((number, rest[0]))
    return items, looks


def looks_of(conflicts, state):
    return {(number, token) for number, tokens in conflicts.looks[state].items()
            for index, token in enumerate(conflicts.grammar.tokens) if tokens >> index & 1}


def test_definitions(_):
    """What the first derivations show of each state is all there is in it."""
    for case in CASES:
        conflicts = conflicts_of(case.text)
        items, looks = by_derivations(conflicts)
        for state in conflicts.states.numbers:
            assert items[state] == conflicts.states.items[state], f"{case.name}: the items of state {state}"
            assert looks[state] == looks_of(conflicts, state), f"{case.name}: what looks in state {state}"


def test_other_kinds(_):
    """A text has the same counts if it is of another kind, unless it names the end token, as only Bison's files can."""
    count = 0
    for case in CASES:
        tree, errors = errors_of("Original", case.text)
        if not errors and b"YYEOF" not in case.text:
            count += 1
            both = Conflicts(tree), conflicts_of(case.text)
            found = [(len(it.left), it.shift_reduce, it.reduce_reduce) for it in both]
            assert found[0] == found[1], f"{case.name}: {found}"
    assert count > 15, f"{count} texts"
