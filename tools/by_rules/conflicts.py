"""Where a grammar isn't LALR(1), by the definitions. by_rules/states.py has those of items and states.

- In state q a token t *looks at* p if for some α whose state is q some rightmost derivation reaches δ A t w, p is A: β,
  and α = δ β.
- In state q at token t are a *shift* if some item of q has t next, and a *reduction* by each p at which t looks. To shift
  the end token is to accept.
- Precedence settles shift against reduction, by one reduction after the other in the order of the productions, as long as
  there is the shift, if the token and the production both have one: the higher level wins. At equal levels left reduces,
  right shifts, nonassoc does neither, and %precedence settles nothing. What loses is gone.
- States count to which symbols lead from the first one without a shift that is gone.
- A *shift/reduce conflict* is a state that counts and a token at which the shift and a reduction are left. Where n
  reductions are left, n - 1 are *reduce/reduce conflicts*.
"""
from .states import Grammar, States


class Firsts:
    """For each list γ that ends a production, the tokens with which what it derives begins, and whether it is nullable.

    A set of tokens is a number, whose bit t is 1 if the token with index t is in it.
    """

    def __init__(self, grammar):
        self.sets = {it: 1 << index for index, it in enumerate(grammar.tokens)}
        self.nullable = set()
        before = None
        while before != (self.sets, self.nullable):
            before = dict(self.sets), set(self.nullable)
            for p in grammar.productions.values():
                found, is_nullable = self.of(p.symbols)[0]
                self.sets[p.rule] = self.sets.get(p.rule, 0) | found
                if is_nullable:
                    self.nullable.add(p.rule)

    def of(self, symbols):
        """The tokens of each end of this list, and whether it is nullable: first those of the whole list."""
        found = [(0, True)]
        for symbol in reversed(symbols):
            tokens, is_nullable = found[-1] if symbol in self.nullable else (0, False)
            found.append((tokens | self.sets.get(symbol, 0), is_nullable))
        return found[::-1]


class Lookaheads:
    """The tokens that look at each production in each state.

    In state q a token t *follows* rule A if for some α whose state is q some rightmost derivation reaches α A t w. So t
    looks at p, which is A: β, in a state if it follows A in a state from which β leads there. What follows A in q comes
    of each production B: β A γ and each state r with B next from which β leads to q: the tokens with which γ begins, and,
    if γ is nullable, those that follow B in r.
    """

    def __init__(self, states):
        self.states, self.firsts = states, Firsts(states.grammar)
        self.follow, self.leads, self.reduced = {}, {}, []
        ends = {number: self.firsts.of(p.symbols) for number, p in states.grammar.productions.items()}
        for state in states.numbers:
            for rule in states.rules_next(state):
                for number in states.grammar.of_rule.get(rule, ()):
                    self.add(state, rule, number, ends[number])
        self.grow()
        self.looks = [{} for _ in states.items]
        for state, number, source in self.reduced:
            self.looks[state][number] = self.looks[state].get(number, 0) | self.follow.get(source, 0)

    def add(self, state, rule, number, ends):
        """What a production of a rule that is next in a state shows."""
        symbols = self.states.grammar.productions[number].symbols
        path = self.states.path(state, symbols)
        for q, symbol, (tokens, is_nullable) in zip(path, symbols, ends[1:]):
            if not symbol[0]:
                self.follow[q, symbol] = self.follow.get((q, symbol), 0) | tokens
                if is_nullable:
                    self.leads.setdefault((state, rule), []).append((q, symbol))
        self.reduced.append((path[-1], number, (state, rule)))

    def grow(self):
        todo = list(self.follow)
        while todo:
            source = todo.pop()
            for target in self.leads.get(source, ()):
                if self.follow[source] & ~self.follow[target]:
                    self.follow[target] |= self.follow[source]
                    todo.append(target)


class Actions:
    """What is to do in a state at a token: whether to shift, the reductions, by their numbers in order, and how precedence
    settled shift against reduction: for each reduction 'shift', 'reduce' or 'error'.
    """

    def __init__(self, grammar, state, token, is_shift, reductions):
        self.state, self.token, self.is_shift, self.reductions, self.settled = state, token, is_shift, [*reductions], []
        for number in reductions:
            wins = self.is_shift and winner(grammar, token, number)
            if wins:
                self.settled.append((number, wins))
                self.is_shift = wins == 'shift'
                if wins != 'reduce':
                    self.reductions.remove(number)

    @property
    def is_shift_reduce(self):
        return self.is_shift and len(self.reductions) > 0

    @property
    def reduce_reduce(self):
        """How many reduce/reduce conflicts there are."""
        return max(0, len(self.reductions) - 1)


def winner(grammar, token, number):
    """Whether precedence has a token shifted, or reduces by a production, or makes it an error; or None."""
    one, other = grammar.precedences.get(token), grammar.productions[number].precedence
    if one is None or other is None:
        return None
    if one[0] != other[0]:
        return 'shift' if one[0] > other[0] else 'reduce'
    equal = {'Left': 'reduce', 'Right': 'shift', 'Nonassoc': 'error'}
    return None if token in grammar.by_level else equal[one[1]]


class Conflicts:
    """The conflicts of a tree: what is to do at each token in the states that count, what of it conflicts, and the counts.
    """

    def __init__(self, tree):
        self.tree, self.grammar = tree, Grammar(tree)
        self.states = States(self.grammar)
        lookaheads = Lookaheads(self.states)
        self.firsts, self.looks = lookaheads.firsts, lookaheads.looks
        of_state = [list(self.actions_of(state)) for state in self.states.numbers]
        self.left = self.left_by(of_state)
        self.actions = [it for state in self.left for it in of_state[state]]
        self.conflicts = [it for it in self.actions if it.is_shift_reduce or it.reduce_reduce]
        self.shift_reduce = sum(it.is_shift_reduce for it in self.conflicts)
        self.reduce_reduce = sum(it.reduce_reduce for it in self.conflicts)

    def actions_of(self, state):
        """The actions of a state, in order of the tokens."""
        reductions = sorted(self.looks[state].items())
        for index, token in enumerate(self.grammar.tokens):
            numbers = [number for number, tokens in reductions if tokens >> index & 1]
            if numbers or token in self.states.after[state]:
                yield Actions(self.grammar, state, token, token in self.states.after[state], numbers)

    def left_by(self, of_state):
        """The states that count, in order."""
        todo = [*self.states.numbers[:1]]
        found = {*todo}
        while todo:
            state = todo.pop()
            lost = {it.token for it in of_state[state] if not it.is_shift}
            new = {to for symbol, to in self.states.after[state].items() if symbol not in lost} - found
            found |= new
            todo += new
        return sorted(found)
