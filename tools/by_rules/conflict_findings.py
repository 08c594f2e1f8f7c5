"""The findings about conflicts: expectations that aren't met, and what clashes in conflicts. by_rules/conflicts.py finds these,
and by_rules/shown_examples.py the examples.

A *clash* is a production that is reduced in a conflict, with an item that has the token next, or with the first production
that is reduced there. In how many states the two clash is no matter: the example is of the first one.
"""
from copy import copy
from itertools import chain, groupby, repeat

from .conflicts import Conflicts
from .rendered import visible
from .shown_examples import example
from .states import Numbers

NOWHERE = (0, 0)                                   # the span of an added production
MOST_EXAMPLES = 20                                 # how many of the findings have one


def conflict_findings(tree):
    """(kind, spans, text, note) of each, in order."""
    conflicts = Conflicts(plain(tree))
    unmet = [*unmet_text('Shift/reduce', conflicts.shift_reduce, tree.expect),
             *unmet_text('Reduce/reduce', conflicts.reduce_reduce, tree.expectrr)]
    is_listed = {True: unmet or tree.expect is None, False: unmet or tree.expectrr is None}
    listed = [it for it in clashes_of(conflicts) if is_listed[it.shifts]]
    has_example = chain(repeat(True, MOST_EXAMPLES), repeat(False))
    return unmet + [clash_finding(tree, conflicts, clash, [it.token for it in group], example_text(conflicts, clash) if has else None)
                    for (clash, group), has in zip(groupby_pair(listed), has_example)]


def plain(tree):
    """The tree as its grammar in numbers has it: no token of the file is the end token, and each production without a %prec
    has the precedence of its last token.
    """
    found = copy(tree)
    found.end, found.has_default_precedence = None, True
    return found


def unmet_text(title, found, expected):
    if expected is not None and expected[0] != found:
        yield 'UnmetExpect', [expected[1]], '%s conflicts: %d found, %d expected' % (title, found, expected[0]), None


class Clash:
    """Whether the token could be shifted, the production that could be reduced, the item by which the token could be shifted,
    or that of the first production, all of it read, and the token's index; and the first state in which they clash.
    """

    def __init__(self, shifts, production, other, token, state):
        self.shifts, self.production, self.other, self.token, self.state = shifts, production, other, token, state

    @property
    def pair(self):
        """All but the token and the state. Those of shifts come first."""
        return not self.shifts, self.production, self.other


def clashes_of(conflicts):
    """What clashes in the conflicts, each once and in order."""
    found, numbers = {}, Numbers(conflicts.states).of
    for it in sorted(conflicts.conflicts, key=lambda it: numbers[it.state]):
        token = conflicts.grammar.tokens.index(it.token)
        clashes = [Clash(True, number, item, token, it.state) for number in it.reductions * it.is_shift
                   for item in conflicts.states.items[it.state] if conflicts.grammar.next(item) == it.token]
        first = it.reductions[0]
        clashes += [Clash(False, number, (first, len(conflicts.grammar.productions[first].symbols)), token, it.state)
                    for number in it.reductions[1:]]
        for clash in clashes:
            found.setdefault((clash.pair, token), clash)
    return [found[it] for it in sorted(found)]


def groupby_pair(clashes):
    """The first of those that are the same but for the token, and all of them."""
    for _, group in groupby(clashes, lambda it: it.pair):
        group = [*group]
        yield group[0], group


def clash_finding(tree, conflicts, clash, tokens, note):
    """That the two clash at these tokens."""
    grammar, (other, read) = conflicts.grammar, clash.other
    names = tokens_text(grammar, tokens)
    title = 'Shift/reduce conflict' if clash.shifts else 'Reduce/reduce conflict'
    own, before = grammar.productions[clash.production].symbols, grammar.productions[other].symbols[:read]
    longer = before if len(own) < len(before) else own
    after = 'after %s  ' % symbols_text(longer) if longer else ''
    text = '%s at %s: %sit may be reduced by  %s  or %s' % (
        title, names, after, production_text(grammar, clash.production), other_text(grammar, clash))
    own_span, other_span = span_of(tree, clash.production), span_of(tree, other)
    spans = [own_span] if other in (clash.production, grammar.added) else [own_span, other_span]
    return 'ShiftReduce' if clash.shifts else 'ReduceReduce', spans, text, note


def example_text(conflicts, clash):
    """The two lists of an example, or the one that both are, with a dot after what leads to the state."""
    reduced, other = (symbols_text(prefix) + ' .' + symbols_text(rest) for prefix, rest in example(conflicts, clash))
    if reduced == other:
        return 'for example both in ' + reduced
    return 'for example the first in %s  and the second in %s' % (reduced, other)


def span_of(tree, number):
    return tree.productions[number].span if number < len(tree.productions) else NOWHERE


def token_text(grammar, index):
    token = grammar.tokens[index]
    return 'the end of the text' if token == grammar.end else "'%s'" % visible(token[1])


def tokens_text(grammar, indices):
    return ', '.join(token_text(grammar, it) for it in indices)


def symbols_text(symbols):
    """The names of symbols, each after a blank."""
    return ''.join(' ' + visible(name) for _, name in symbols)


def production_text(grammar, number):
    p = grammar.productions[number]
    return '%s:%s' % (visible(p.rule[1]), symbols_text(p.symbols))


def item_text(grammar, item):
    """A production with a dot before what isn't read."""
    p, symbols = grammar.productions[item[0]], grammar.own_symbols(item[0])
    return '%s:%s .%s' % (visible(p.rule[1]), symbols_text(symbols[:item[1]]), symbols_text(symbols[item[1]:]))


def other_text(grammar, clash):
    """What could be done instead of the reduction."""
    other, _ = clash.other
    if not clash.shifts:
        return 'by  ' + production_text(grammar, other)
    return 'accepted' if other == grammar.added else 'go on with  ' + item_text(grammar, clash.other)
