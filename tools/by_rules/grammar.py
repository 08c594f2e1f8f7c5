"""The numbered grammar of a valid tree: "Numbering", "Limits", "FIRST sets", "FOLLOW sets and paths"."""


class NumberedRule:
    def __init__(self, name, span, action_type, productions):
        self.name, self.span, self.action_type, self.productions = name, span, action_type, productions


class NumberedProduction:
    """A production with its symbols as ('token' or 'rule', index); rule is its rule's index."""

    def __init__(self, span, symbols, precedence, action):
        self.span, self.symbols, self.precedence, self.action, self.rule = span, symbols, precedence, action, None


class Grammar:
    def __init__(self, tree):
        self.tree = tree
        self.has_implicit = tree.implicit_tokens is not None
        self.start_production = count = len(tree.productions)
        self.tokens = list(tree.tokens.items())
        self.rules = [NumberedRule('^', (0, 0), None, [count])]
        if self.has_implicit:
            of_tilde = range(count + 1, count + 2 + len(tree.implicit_tokens))
            self.rules.append(NumberedRule('~', (0, 0), None, [*of_tilde]))
            self.rules.append(NumberedRule('^~', (0, 0), None, [of_tilde.stop]))
        self.rules += [NumberedRule(n, r.span, r.action_type, [*r.productions]) for n, r in tree.rules.items()]
        self.rule_index = {r.name: i for i, r in enumerate(self.rules)}
        self.token_index = {n: i for i, (n, _) in enumerate(self.tokens)}
        self.productions = [NumberedProduction(p.span, self.symbols(p), self.precedence(p), p.action)
                            for p in tree.productions]
        self.productions += [NumberedProduction((0, 0), symbols, None, None) for symbols in self.added()]
        for i, rule in enumerate(self.rules):
            for p in rule.productions:
                self.productions[p].rule = i

    def symbols(self, production):
        """The symbols of a production of the file; with implicit tokens, `~` comes after each token."""
        symbols = []
        for is_token, n, _ in production.symbols:
            symbols.append(('token', self.token_index[n]) if is_token else ('rule', self.rule_index[n]))
            if is_token and self.has_implicit:
                symbols.append(('rule', self.rule_index['~']))
        return symbols

    def precedence(self, production):
        """(level, associativity) of the token of %prec, else of the last token."""
        name = production.precedence
        if name is None:
            name = next((n for is_token, n, _ in reversed(production.symbols) if is_token), None)
        return self.token_precedence(name)

    def token_precedence(self, name):
        found = self.tree.precedences.get(name)
        return None if found is None else found[:2]

    def added(self):
        """The symbols of the added productions."""
        start = ('rule', self.rule_index[self.tree.start[0]])
        if not self.has_implicit:
            return [[start]]
        tilde, begin = ('rule', self.rule_index['~']), ('rule', self.rule_index['^~'])
        implicit = [[('token', self.token_index[n]), tilde] for n in self.tree.implicit_tokens]
        return [[begin], *implicit, [], [tilde, start]]

    def printed(self, name):
        return self.tree.printed[name][1] if name in self.tree.printed else name

    def is_avoided(self, name):
        return name in (self.tree.avoid_insert or {})

    def fits(self, limit):
        return all(n <= limit for n in [len(self.rules), len(self.tokens) + 1, len(self.productions)]
                   + [len(p.symbols) for p in self.productions])

    def symbol_name(self, symbol):
        what, index = symbol
        return self.tokens[index][0] if what == 'token' else self.rules[index].name

    def firsts(self):
        """For each rule the set of its tokens and whether it is nullable: the least such sets."""
        sets, nullable = [set() for _ in self.rules], [False] * len(self.rules)
        changed = True
        while changed:
            changed = False
            for p in self.productions:
                before = (len(sets[p.rule]), nullable[p.rule])
                for what, index in p.symbols:
                    if what == 'token':
                        sets[p.rule].add(index)
                        break
                    sets[p.rule] |= sets[index]
                    if not nullable[index]:
                        break
                else:
                    nullable[p.rule] = True
                changed = changed or before != (len(sets[p.rule]), nullable[p.rule])
        return sets, nullable

    def follows(self):
        """For each rule the tokens right after it in what some rule derives, and the end token if the start rule derives a
        list that ends with it.

        By a production X: .. B c, FIRST of c comes right after B, and if c is nullable, what comes after X comes after B.
        """
        sets, nullable = self.firsts()
        after, ends = [set() for _ in self.rules], [set() for _ in self.rules]
        after[0].add(len(self.tokens))
        for p in self.productions:
            begins, is_nullable = set(), True      # of what comes after the symbol
            for what, index in reversed(p.symbols):
                if what == 'token':
                    begins, is_nullable = {index}, False
                    continue
                after[index] |= begins
                if is_nullable:
                    ends[p.rule].add(index)
                begins = sets[index] | begins if nullable[index] else sets[index]
                is_nullable = is_nullable and nullable[index]
        follows = [set() for _ in self.rules]
        for rule, tokens in enumerate(after):
            for last in reachable(ends, [rule]) if tokens else ():
                follows[last] |= tokens
        return follows

    def paths(self, rule):
        """The rules that are reachable from a rule by one or more references."""
        refers = [{index for p in r.productions for what, index in self.productions[p].symbols if what == 'rule'}
                  for r in self.rules]
        return reachable(refers, refers[rule])


def reachable(steps, begin):
    """These, and all to which steps lead from them."""
    seen, todo = set(begin), list(begin)
    while todo:
        found = steps[todo.pop()] - seen
        seen |= found
        todo.extend(found)
    return seen
