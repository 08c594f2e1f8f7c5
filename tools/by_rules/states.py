"""The states of a grammar's LALR(1) parser, by the definitions.

The productions are those of the file whose rules all have a sentence, by their numbers in it, and the added one,
`^: S END`, which has the last number. A symbol is (is it a token, name). A *rightmost derivation* replaces the last
rule of the list at each step.

- An item (p, i) is a production and how many of its symbols are read. It is *valid* for a list α of symbols if some
  rightmost derivation from `^` reaches δ A w (w are tokens), p is a production A: β γ, β has i symbols, and α = δ β. The
  lists for which some item is valid are the *viable prefixes*.
- The *state* of a viable prefix is the set of the items that are valid for it.
"""
from .grammar import Grammar as Numbered


class Production:
    """A production: its rule, its symbols, and its precedence, (level, associativity) or None."""

    def __init__(self, rule, symbols, precedence):
        self.rule, self.symbols, self.precedence = rule, symbols, precedence


class Grammar:
    """The productions that take part, and the precedences of tokens."""

    def __init__(self, tree):
        numbered = Numbered(tree)
        self.precedences = {(True, n): found[:2] for n, found in tree.precedences.items()}
        self.by_level = {(True, n) for n in tree.only_precedence}       # the tokens of %precedence
        self.end, self.added = (True, end_of(tree)), numbered.start_production
        self.productions = {}
        for number, p in enumerate(numbered.productions):
            symbols = [(what == 'token', numbered.symbol_name((what, index))) for what, index in p.symbols]
            symbols += [self.end] * (number == self.added)
            rule = (False, numbered.rules[p.rule].name)
            self.productions[number] = Production(rule, symbols, self.precedence(tree, number, symbols))
        self.start = self.productions[self.added].rule
        self.productions = with_sentences(self.productions)
        self.of_rule = {}
        for number, p in self.productions.items():
            self.of_rule.setdefault(p.rule, []).append(number)
        self.tokens = list(dict.fromkeys([*((True, n) for n in tree.tokens), self.end]))
        self.symbols = [(False, rule.name) for rule in numbered.rules] + self.tokens

    def precedence(self, tree, number, symbols):
        """The precedence of the token of %prec, else of the last token. Added productions have none."""
        if number >= len(tree.productions):
            return None
        named = tree.productions[number].precedence
        if named is not None:
            return self.precedences.get((True, named))
        tokens = [it for it in symbols if it[0]] if tree.has_default_precedence else []
        return self.precedences.get(tokens[-1]) if tokens else None

    def own_symbols(self, number):
        """The symbols of a production, without the end token of the added one."""
        return tuple(it for it in self.productions[number].symbols if number != self.added or it != self.end)

    def next(self, item):
        """The symbol that an item has next, or None."""
        symbols = self.productions[item[0]].symbols
        return symbols[item[1]] if item[1] < len(symbols) else None


def end_of(tree):
    """The name of the end token: a token of the file that is it, or a name that none has."""
    name = tree.end or '$end'
    while tree.end is None and name in tree.tokens:
        name = '$' + name
    return name


def with_sentences(productions):
    """The productions whose rules all have a sentence."""
    kept, rules, before = {}, set(), None
    while before != len(kept):
        before = len(kept)
        kept = {number: p for number, p in productions.items() if all(it[0] or it in rules for it in p.symbols)}
        rules = {p.rule for p in kept.values()}
    return kept


class States:
    """The states, each the set of its items. The first is that of the empty list. From the state of α, `after` leads by a
    symbol X to that of αX.
    """

    def __init__(self, grammar):
        self.grammar = grammar
        self.kernels = [frozenset([(it, 0)]) for it in grammar.productions if it == grammar.added]
        numbers, self.items, self.after = {it: 0 for it in self.kernels}, [], []
        for kernel in self.kernels:
            self.items.append(self.valid(kernel))
            self.after.append({})
            for symbol, read in self.read(self.items[-1]).items():
                if read not in numbers:
                    numbers[read] = len(self.kernels)
                    self.kernels.append(read)
                self.after[-1][symbol] = numbers[read]
        self.numbers = range(len(self.items))

    def valid(self, kernel):
        """The items of a state: some of them, and those of the productions of each rule that one of its items has next."""
        rules, todo, items = set(), list(kernel), set(kernel)
        while todo:
            rule = self.grammar.next(todo.pop())
            if rule not in rules:
                rules.add(rule)
                new = [(number, 0) for number in self.grammar.of_rule.get(rule, ())]
                items.update(new)
                todo += new
        return items

    def read(self, items):
        """The items after a symbol is read, by that symbol."""
        found = {}
        for number, read in sorted(items):
            symbol = self.grammar.next((number, read))
            if symbol is not None:
                found.setdefault(symbol, set()).add((number, read + 1))
        return {symbol: frozenset(it) for symbol, it in found.items()}

    def rules_next(self, state):
        """The rules that items of a state have next, and `^` in the first."""
        return [it for it in self.after[state] if not it[0]] + [self.grammar.start] * (state == 0)

    def path(self, state, symbols):
        """The states on the way from a state by these symbols: before each of them, and after the last."""
        states = [state]
        for symbol in symbols:
            states.append(self.after[states[-1]][symbol])
        return states


class Numbers:
    """The states as `cfglint` numbers them: breadth first, by the rules in order and then by the tokens. The state after the end
    token is none of them.
    """

    def __init__(self, states):
        self.targets, self.of = {}, {state: state for state in states.numbers[:1]}
        order = [*self.of]
        for state in order:
            after = states.after[state]
            self.targets[state] = [(it, after[it]) for it in states.grammar.symbols[:-1] if it in after]
            for _, to in self.targets[state]:
                if to not in self.of:
                    self.of[to] = len(order)
                    order.append(to)
