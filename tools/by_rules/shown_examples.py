"""The examples of conflicts that `cfglint` shows: for a clash two lists that the start rule derives, which are equal up to and
with the token.

A *way* leads to an item, or to a rule after which it is still to be seen whether the token comes. Its *side* is the prefix
that leads there, and what comes after the item's production, or after the rule. Ways are found breadth first: a step reads a
symbol or opens a rule. So few steps lead to an example, but it isn't always a shortest one, as those of
by_rules/conflict_examples.py are.
"""
from collections import namedtuple

# An item at a place, and whether the token comes after its production. A rule that is next at a place, and the rule that comes
# first after it.
ItemAt = namedtuple('ItemAt', 'place production read is_followed')
RuleAt = namedtuple('RuleAt', 'place rule first')


class Ways:
    """The ways over places, each with the side that is found first. `step` gives the place after a place and a symbol, or None.
    The token is the one that is to come after an item's production.
    """

    def __init__(self, conflicts, token, step):
        grammar = conflicts.grammar
        self.token, self.step = token, step
        self.of_rule, self.nullable = grammar.of_rule, conflicts.firsts.nullable
        self.symbols = {number: grammar.own_symbols(number) for number in grammar.productions}
        self.found, self.order = {}, []
        self.enter(0, grammar.start, False, (), ())
        if token == grammar.end:
            self.enter(0, grammar.start, True, (), ())

    def side(self, node):
        """The prefix and the rest of a node, or None."""
        for it in self.order:
            if node in self.found:
                break
            self.go_on(it, *self.found[it])
        return self.found.get(node)

    def add(self, node, prefix, rest):
        if node not in self.found:
            self.found[node] = prefix, rest
            self.order.append(node)

    def enter(self, place, rule, is_followed, prefix, rest):
        """The productions of a rule that is next."""
        for number in self.of_rule.get(rule, ()):
            self.add(ItemAt(place, number, 0, is_followed), prefix, rest)

    def go_on(self, at, prefix, rest):
        """What a node leads to."""
        if isinstance(at, RuleAt):
            for number in self.of_rule.get(at.first, ()):
                self.show(at.place, at.rule, self.symbols[number], prefix, rest)
        elif at.read < len(self.symbols[at.production]):
            self.go_on_by(at, self.symbols[at.production][at.read], prefix, rest)

    def go_on_by(self, at, symbol, prefix, rest):
        """What an item leads to by its next symbol."""
        place = self.step(at.place, symbol)
        if place is not None:
            self.add(at._replace(place=place, read=at.read + 1), (*prefix, symbol), rest)
        if symbol[0]:
            return
        after = self.symbols[at.production][at.read + 1:]
        self.enter(at.place, symbol, False, prefix, (*after, *rest))
        is_nullable = self.show(at.place, symbol, after, prefix, rest)
        if is_nullable and at.is_followed:
            self.enter(at.place, symbol, True, prefix, rest)

    def show(self, place, rule, symbols, prefix, rest):
        """What a rule leads to by the symbols after it, of which nullable ones are left out. Whether all are nullable."""
        for index, symbol in enumerate(symbols):
            if symbol == self.token:
                self.enter(place, rule, True, prefix, (*symbols[index:], *rest))
            elif not symbol[0]:
                self.add(RuleAt(place, rule, symbol), prefix, (*symbols[index + 1:], *rest))
            if symbol not in self.nullable:
                return False
        return True


def example(conflicts, clash):
    """The two sides of a clash in a state, each as what leads to the state, and what comes after that."""
    grammar, state = conflicts.grammar, clash.state
    token, (other, read) = grammar.tokens[clash.token], clash.other
    length = len(grammar.productions[clash.production].symbols)
    by_states = lambda place, symbol: conflicts.states.after[place].get(symbol)
    prefix, rest = Ways(conflicts, token, by_states).side(ItemAt(state, clash.production, length, True))
    by_prefix = lambda place, symbol: place + 1 if prefix[place:place + 1] == (symbol,) else None
    found = Ways(conflicts, token, by_prefix).side(ItemAt(len(prefix), other, read, not clash.shifts))
    if found is None:
        found = Ways(conflicts, token, by_states).side(ItemAt(state, other, read, True))
    return (prefix, rest), (found[0], (*grammar.own_symbols(other)[read:], *found[1]))
