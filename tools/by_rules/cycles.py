"""Unit steps, each from a rule to a rule in one of its productions whose other symbols are nullable, and the shortest cycles of them."""


class Step:
    """A step from the rule of a production to the rule at an index of its symbols."""

    def __init__(self, symbols, at):
        self.symbols, self.at, self.rule = symbols, at, symbols[at][1]


class Cycles:
    def __init__(self, grammar):
        self.grammar = grammar
        _, self.nullable = grammar.firsts()
        self.steps = [[step for p in rule.productions for step in self.steps_by(grammar.productions[p].symbols)]
                      for rule in grammar.rules]
        self.sources = [set() for _ in grammar.rules]  # the rules from which a step leads to a rule
        for rule, steps in enumerate(self.steps):
            for step in steps:
                self.sources[step.rule].add(rule)

    def steps_by(self, symbols):
        """The steps by a production: to each rule in it, if all other symbols are nullable."""
        kept = [at for at, (what, index) in enumerate(symbols) if what == 'token' or not self.nullable[index]]
        targets = kept if len(kept) == 1 else range(len(symbols)) if not kept else []
        return [Step(symbols, at) for at in targets if symbols[at][0] == 'rule']

    def reached(self, rule):
        """The rules to which one or more steps lead from this rule."""
        reached, todo = set(), [rule]
        while todo:
            new = {step.rule for step in self.steps[todo.pop()]} - reached
            reached |= new
            todo += new
        return reached

    def together(self, rule):
        """The rules on a common cycle with this rule, in order; none if it has no cycle."""
        return sorted(self.reached(rule) & self.distances(rule).keys())

    def distances(self, rule):
        """The least number of steps to this rule from each rule from which steps lead to it; 0 for the rule itself."""
        distances, layer = {rule: 0}, [rule]
        while layer:
            length = distances[layer[0]] + 1
            layer = list({it for to in layer for it in self.sources[to]} - distances.keys())
            distances.update((it, length) for it in layer)
        return distances

    def shortest(self, rule):
        """The shortest cycles of the rule, as paths of steps."""
        distances = self.distances(rule)
        lengths = [1 + distances[step.rule] for step in self.steps[rule] if step.rule in distances]
        return self.paths(rule, min(lengths), distances) if lengths else iter(())

    def paths(self, rule, length, distances):
        """All paths of this length from the rule to the one to which the distances are."""
        todo = [(rule, [])]
        while todo:
            rule, path = todo.pop()
            left = length - len(path) - 1
            paths = [[*path, step] for step in self.steps[rule] if distances.get(step.rule) == left]
            if left == 0:
                yield from paths
            else:
                todo += [(path[-1].rule, path) for path in reversed(paths)]

    def text(self, path):
        """The steps of a path: the rule to which each leads, and in brackets the nullable symbols beside it."""
        name, out = self.grammar.symbol_name, ''
        for step in path:
            names = ['[%s]' % name(symbol) for symbol in step.symbols]
            names[step.at] = name(step.symbols[step.at])
            out += ' -> ' + ' '.join(names)
        return out
