"""Examples of conflicts: two lists of symbols that derivations from `^` reach, which are equal up to and with the token.
What is before it leads to the state. One derivation reduces there, and the other one shifts the token, or reduces by
another production.

If for no list that leads to the state the token looks at both productions, each has a prefix of its own. Then there is a
conflict only since different lists have the same state, and the grammar may be LR(1).
"""
from heapq import heappop, heappush
from itertools import count


class Side:
    """One of the two lists: the item that it goes on with, what leads to the state, and what comes after that."""

    def __init__(self, conflicts, item, prefix, rest):
        self.item, self.prefix, self.rest = item, prefix, rest
        self.production = conflicts.grammar.productions[item[0]]

    @property
    def before(self):
        """The list before the last step of the derivation: it has the rule in place of the production's symbols."""
        read, symbols = self.item[1], self.production.symbols
        return [*self.prefix[:len(self.prefix) - read], self.production.rule, *self.rest[len(symbols) - read:]]

    @property
    def list(self):
        return [*self.prefix, *self.rest]


class Search:
    """Finds such lists from the state back to the first one, a shortest prefix first.

    A node is a state and for each list an item of it, and whether what comes after the item's production is still open:
    after a reduction it has to begin with the token.
    """

    def __init__(self, conflicts, token):
        self.states, self.grammar, self.token = conflicts.states, conflicts.grammar, token
        self.nullable = conflicts.firsts.nullable
        self.sources = [[] for _ in self.states.items]
        for state, after in enumerate(self.states.after):
            for symbol, to in after.items():
                self.sources[to].append((state, symbol))
        self.begun = {token: (token,)}
        before = None
        while before != self.begun:
            before = dict(self.begun)
            for p in self.grammar.productions.values():
                self.begun.update({p.rule: it for it in self.shortest_begun(p.symbols, self.begun.get(p.rule))})

    def shortest_begun(self, symbols, known=None):
        """The shortest list that begins with the token and that this one derives, if it is shorter than a known one."""
        found = []
        for index, symbol in enumerate(symbols):
            if symbol in self.begun:
                found.append((*self.begun[symbol], *symbols[index + 1:]))
            if symbol not in self.nullable:
                break
        best = min(found, key=len, default=None)
        return [best] if best and (known is None or len(best) < len(known)) else []

    def above(self, state, item, is_open):
        """The items that have the rule of an item's production next: each with what comes after it, and whether that is
        still open.
        """
        rule = self.grammar.productions[item[0]].rule
        for number, read in sorted(it for it in self.states.items[state] if self.grammar.next(it) == rule):
            after = self.grammar.productions[number].symbols[read + 1:]
            if not is_open:
                yield (number, read), tuple(after), False
                continue
            for it in self.shortest_begun(after):
                yield (number, read), it, False
            if all(it in self.nullable for it in after):
                yield (number, read), (), True

    def steps(self, node):
        """The steps from a node: (what they add to the prefix, what to each list, the node)."""
        state, sides = node
        for index, (item, is_open) in enumerate(sides):
            if item == (self.grammar.added, 0):
                continue
            if item[1] == 0:
                for other, added, still_open in self.above(state, item, is_open):
                    rests = [()] * len(sides)
                    rests[index] = added
                    yield (), rests, (state, (*sides[:index], (other, still_open), *sides[index + 1:]))
                return
        for source, symbol in self.sources[state]:
            read = tuple(((number, read - 1), is_open) for (number, read), is_open in sides)
            yield (symbol,), [()] * len(sides), (source, read)

    def lists(self, state, sides):
        """A shortest prefix, and what comes after it in each list; or None."""
        goal = (0, (((self.grammar.added, 0), False),) * len(sides))
        numbers, first = count(), (state, tuple(sides))
        todo, seen = [(0, 0, next(numbers), first, (), [()] * len(sides))], set()
        while todo:
            length, more, _, node, prefix, rests = heappop(todo)
            if node == goal:
                return list(prefix), rests
            if node not in seen:
                seen.add(node)
                for symbols, added, other in self.steps(node):
                    longer = [(*one, *two) for one, two in zip(rests, added)]
                    heappush(todo, (length + len(symbols), more + sum(map(len, added)), next(numbers), other,
                                    (*symbols, *prefix), longer))
        return None


def example(conflicts, actions, other=1):
    """The two sides of the conflict of these actions: the first reduction, and the shift or another reduction."""
    one = actions.reductions[0]
    sides = [((one, len(conflicts.grammar.productions[one].symbols)), True)]
    if actions.is_shift:
        sides.append((next(it for it in sorted(conflicts.states.items[actions.state])
                           if conflicts.grammar.next(it) == actions.token), False))
    else:
        number = actions.reductions[other]
        sides.append(((number, len(conflicts.grammar.productions[number].symbols)), True))
    search = Search(conflicts, actions.token)
    found = search.lists(actions.state, sides)
    if found:
        prefixes, rests = [found[0]] * 2, found[1]
    else:
        of_each = [search.lists(actions.state, [it]) for it in sides]
        prefixes, rests = [it[0] for it in of_each], [it[1][0] for it in of_each]
    return [Side(conflicts, item, prefix, with_own(conflicts, item, rest))
            for (item, _), prefix, rest in zip(sides, prefixes, rests)]


def with_own(conflicts, item, rest):
    """What comes after the prefix, with the symbols that an item still has."""
    return [*conflicts.grammar.productions[item[0]].symbols[item[1]:], *rest]


def derives(grammar, symbols):
    """Whether `^` derives this list."""
    size = len(symbols)
    ends = {}                # for each rule and offset the ends of what it derives there

    def ends_of(symbol, at):
        return {at + 1} & ({at + 1} if at < size and symbols[at] == symbol else set()) | ends.get((symbol, at), set())

    before = None
    while before != sum(map(len, ends.values())):
        before = sum(map(len, ends.values()))
        for p in grammar.productions.values():
            for begin in range(size + 1):
                reached = {begin}
                for symbol in p.symbols:
                    reached = {end for at in reached for end in ends_of(symbol, at)}
                ends.setdefault((p.rule, begin), set()).update(reached)
    return symbols == [grammar.start] or size in ends[grammar.start, 0]


def fault(conflicts, actions, sides):
    """What is wrong with an example, or None."""
    for side in sides:
        if conflicts.states.path(0, side.prefix)[-1] != actions.state:
            return "the prefix doesn't lead to the state"
        if side.rest[:1] != [actions.token]:
            return "the token doesn't come after the prefix"
        if not all(derives(conflicts.grammar, it) for it in (side.before, side.list)):
            return "a list isn't derived"
    return None
