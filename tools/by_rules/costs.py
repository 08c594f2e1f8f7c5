"""What the sentences of a numbered grammar cost: "Sentences and their costs" of docs/BEHAVIOUR.md, plain and slow.

Costs here are whole numbers of any size, and None for an unproductive rule. What a rule derives is found by growth: a
derivation tree of a rule is one of its productions with a tree for each rule in it. So what trees of one more level
derive comes from what the trees so far derive, until nothing is new.
"""
import itertools
from functools import cached_property

LIMIT = 65535
UNBOUNDED = float('inf')


class Costs:
    """The costs of a grammar's rules, where the token with an index costs what the list says."""

    def __init__(self, grammar, costs):
        self.grammar, self.costs = grammar, costs
        self.least = self.least_costs()
        self.minimal = {}

    @cached_property
    def greatest(self):
        return self.greatest_costs()

    @cached_property
    def cheapest(self):
        return [[p for p in rule.productions if self.is_cheapest(p)] for rule in self.grammar.rules]

    def sum(self, production, of_rules):
        """The cost of a production by the costs of rules: None if one of them has none."""
        each = [self.costs[index] if what == 'token' else of_rules[index] for what, index in production.symbols]
        if None in each:
            return None
        return UNBOUNDED if UNBOUNDED in each else sum(each)

    def best(self, of_rules, pick):
        """For each rule the best cost of its productions, by the costs of rules."""
        sums = [[self.sum(self.grammar.productions[p], of_rules) for p in rule.productions]
                for rule in self.grammar.rules]
        return [pick(known) if known else None for known in ([it for it in each if it is not None] for each in sums)]

    def least_costs(self):
        """A cheapest tree needs no rule twice on a path from its root, so it has at most as many levels as there are
        rules."""
        least = [None] * len(self.grammar.rules)
        while (after := self.best(least, min)) != least:
            least = after
        return least

    def greatest_costs(self):
        """Trees of as many levels as there are rules have the greatest cost, if there is one: where a path has a rule
        twice, the tree without what is between them costs as much, or else that can be inserted again and again. So a
        rule that costs more by trees of more levels is unbounded, and so is a rule that refers to it."""
        rules = range(len(self.grammar.rules))
        greatest, levels = [None] * len(rules), 0
        while (after := self.best(greatest, max)) != greatest:
            levels += 1
            if levels > len(rules):
                after = [greatest[r] if after[r] == greatest[r] else UNBOUNDED for r in rules]
            greatest = after
        return greatest

    def has_cost(self, rule):
        """Whether the rule has a least cost of at most the limit."""
        return self.least[rule] is not None and self.least[rule] <= LIMIT

    def is_cheapest(self, p):
        """Whether a production has sentences of the least cost of its rule."""
        production = self.grammar.productions[p]
        total = self.sum(production, self.least)
        return total is not None and total == self.least[production.rule]

    def rules_in(self, p):
        return [index for what, index in self.grammar.productions[p].symbols if what == 'rule']

    def minimal_sentences(self, rule):
        """All sentences of least cost in lexicographic order: those of its productions of least cost, with minimal
        sentences for the rules in them."""
        if rule not in self.minimal:
            needed, todo = [], [rule]
            while todo:
                one = todo.pop()
                if one not in needed and one not in self.minimal:
                    needed.append(one)
                    todo += [it for p in self.cheapest[one] for it in self.rules_in(p)]
            self.grow(needed)
        return sorted(self.minimal[rule])

    def grow(self, rules):
        self.minimal.update((rule, set()) for rule in rules)
        changed = True
        while changed:
            changed = False
            for rule in reversed(rules):
                before = len(self.minimal[rule])
                for p in self.cheapest[rule]:
                    self.minimal[rule] |= set(self.products(p))
                changed = changed or before != len(self.minimal[rule])

    def products(self, p):
        pieces = [[(index,)] if what == 'token' else self.minimal[index]
                  for what, index in self.grammar.productions[p].symbols]
        for each in itertools.product(*pieces):
            yield tuple(itertools.chain.from_iterable(each))

    def choices(self):
        """For each rule with a cost a production of least cost and a number, above those of the rules in it: the numbers
        0, 1, 2 .. in the order of costs."""
        found, left = {}, [rule for rule in range(len(self.grammar.rules)) if self.has_cost(rule)]
        while left:
            ready = [(self.least[rule], p, rule) for rule in left for p in self.cheapest[rule]
                     if all(it in found for it in self.rules_in(p))]
            _, p, rule = min(ready)
            found[rule] = (p, len(found))
            left.remove(rule)
        return found

    def made(self, p, of_rules):
        """The sentence of a production with these sentences for its rules: None if one of them has none."""
        if any(it not in of_rules for it in self.rules_in(p)):
            return None
        return [token for what, index in self.grammar.productions[p].symbols
                for token in ([index] if what == 'token' else of_rules[index])]

    def first_sentences(self):
        """For each rule with a cost the first of its sentences of least cost in lexicographic order. None of these is a
        prefix of another of the rule's, so the first of a production consists of its tokens and the first of its rules."""
        rules = [rule for rule in range(len(self.grammar.rules)) if self.has_cost(rule)]
        first, changed = {}, True
        while changed:
            changed = False
            for rule in rules:
                made = [it for it in (self.made(p, first) for p in self.cheapest[rule]) if it is not None]
                if made and min(made) != first.get(rule):
                    first[rule], changed = min(made), True
        return first

    def fewest_openings(self, first):
        """For each rule how few productions derive its first sentence, not counting those of rules that cost nothing."""
        fewest = {rule: UNBOUNDED if self.least[rule] else 0 for rule in first}
        makers = {rule: [p for p in self.cheapest[rule] if self.made(p, first) == first[rule]] for rule in first}

        def opened(rule):
            counts = [1 + sum(fewest[it] for it in self.rules_in(p)) for p in makers[rule]]
            return min(counts) if self.least[rule] else 0

        while (after := {rule: opened(rule) for rule in first}) != fewest:
            fewest = after
        return fewest

    # ------------------------------------------------------------ checkers

    def covers(self, least):
        """Whether each production whose rules all have a cost costs more than the limit, or its rule has a cost of at
        most as much."""
        sums = [(p.rule, self.sum(p, least)) for p in self.grammar.productions]
        return all(total is None or total > LIMIT or least[rule] is not None and least[rule] <= total
                   for rule, total in sums)

    def reaches(self, least, choices):
        """Whether each rule with a cost has a choice: one of its productions that costs just that, whose rules all have
        choices with lower numbers."""
        return all(cost is None or self.is_reached(rule, least, choices) for rule, cost in enumerate(least))

    def is_reached(self, rule, least, choices):
        if choices[rule] is None:
            return False
        p, number = choices[rule]
        return p in self.grammar.rules[rule].productions and self.sum(self.grammar.productions[p], least) == least[rule] \
            and all(choices[it] is not None and choices[it][1] < number for it in self.rules_in(p))
