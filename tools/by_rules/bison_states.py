"""The states that `bison --xml` writes, with all lookaheads, their actions and conflicts, beside by_rules/conflicts.py.

Bison numbers the productions that are reachable and have a sentence from 1, in order, and `$accept: S $end` is its
rule 0. In a state whose only action is one reduction it keeps no lookaheads, unless it gets
-Flr.default-reduction=accepting.
"""
import re
import xml.etree.ElementTree as ElementTree

from .bison_xml import number


class State:
    """A state of Bison's: its items, and by the names in the file what it does at each token."""

    def __init__(self, element, name):
        items = element.find('itemset').findall('item')
        self.items = {(number(it, 'rule-number'), number(it, 'dot')) for it in items}
        actions = element.find('actions')
        self.shifts = {name(it.get('symbol')) for it in actions.find('transitions') if it.get('type') == 'shift'}
        self.errors = {name(it.get('symbol')) for it in actions.find('errors')}
        self.settled = {(number(it, 'rule'), name(it.get('symbol')), it.get('type'))
                        for it in element.find('solved-conflicts')}
        self.reductions = {(number(it, 'rule-number'), name(symbol.text))
                           for it in items if it.find('lookaheads') is not None for symbol in it.find('lookaheads')}


class Counts:
    """The conflicts of each state, by its number, as the report lists them, and in all, as it and the messages do."""

    def __init__(self, report, messages):
        self.of_state, self.messages = {}, {}
        for state, text in re.findall(r'^State (\d+) conflicts: (.*)$', report, re.M):
            found = {kind: int(count) for count, kind in re.findall(r'(\d+) (shift/reduce|reduce/reduce)', text)}
            self.of_state[int(state)] = found.get('shift/reduce', 0), found.get('reduce/reduce', 0)
        self.all = tuple(map(sum, zip(*self.of_state.values()))) or (0, 0)
        for line in messages:
            found = re.search(r'(\d+) (shift/reduce|reduce/reduce) conflicts?\b', line)
            expected = re.search(r'(shift/reduce|reduce/reduce) conflicts: (\d+) found', line)
            if found or expected:
                kind, count = found.groups()[::-1] if found else expected.groups()
                self.messages[kind] = int(count)


class States:
    """What Bison writes of the states."""

    def __init__(self, xml, report, messages):
        self.elements = ElementTree.parse(xml).getroot().find('automaton')
        with open(report, encoding='utf-8', errors='replace') as file:
            self.counts = Counts(file.read(), messages)


class Here:
    """The states by the rules, with Bison's numbers of productions."""

    def __init__(self, conflicts):
        self.conflicts, self.grammar = conflicts, conflicts.grammar
        useful = sorted({number for items in conflicts.states.items for number, _ in items} - {self.grammar.added})
        self.numbers = {self.grammar.added: 0, **{number: 1 + index for index, number in enumerate(useful)}}
        self.state_of = {frozenset(self.renamed(conflicts.states.items[state])): state for state in conflicts.left}
        self.actions = [[] for _ in conflicts.states.items]
        for it in conflicts.actions:
            self.actions[it.state].append(it)

    def renamed(self, items):
        return {(self.numbers[number], read) for number, read in items}

    def conflicting(self, state):
        """The numbers of conflicts of a state."""
        found = self.actions[state]
        return sum(it.is_shift_reduce for it in found), sum(it.reduce_reduce for it in found)

    def difference(self, state, bison):
        """The first difference of a state, or None."""
        found = self.actions[state]
        settled = {(self.numbers[p], it.token[1], wins) for it in found for p, wins in it.settled}
        reductions = {(self.numbers[p], it.token[1]) for it in found for p in it.reductions}
        parts = (
            ('shifts', {it.token[1] for it in found if it.is_shift}, bison.shifts),
            ('settled', settled, bison.settled),
            ('errors', {n for _, n, wins in settled if wins == 'error'}, bison.errors),
            ('reductions', reductions, bison.reductions),
        )
        return next(('%s of a state: bison %s, here %s' % (what, sorted(other), sorted(one))
                     for what, one, other in parts if one != other), None)


def difference(bison, conflicts, name):
    """The first difference between Bison's states and those by the rules, or None. `name` gives symbols their names."""
    here = Here(conflicts)
    states = {number(it, 'number'): State(it, name) for it in bison.elements}
    if len(states) != len(here.state_of):
        return '%d states, bison has %d' % (len(here.state_of), len(states))
    for index, state in states.items():
        other = here.state_of.get(frozenset(state.items))
        found = 'only in bison' if other is None else here.difference(other, state)
        counts = bison.counts.of_state.get(index, (0, 0))
        if not found and here.conflicting(other) != counts:
            found = 'bison has %s conflicts, here %s' % (counts, here.conflicting(other))
        if found:
            return 'state %d: %s' % (index, found)
    return counts_difference(bison.counts, conflicts)


def counts_difference(counts, conflicts):
    """How the counts in all differ, or None. Bison has no message on a count that is 0 or expected."""
    found = conflicts.shift_reduce, conflicts.reduce_reduce
    if found != counts.all:
        return 'bison counts %s conflicts, here %s' % (counts.all, found)
    tree = conflicts.tree
    is_expected = tree.expect is not None or tree.expectrr is not None
    for kind, count in zip(('shift/reduce', 'reduce/reduce'), found):
        if counts.messages.get(kind, count if is_expected else 0) != count:
            return 'bison says %s, here are %d' % (counts.messages.get(kind), count)
    return None
