"""The grammar that `bison --xml` writes, beside what by_rules/bison.py reads."""
import re
import xml.etree.ElementTree as ElementTree

ESCAPED = {'a': '\a', 'b': '\b', 'f': '\f', 'n': '\n', 'r': '\r', 't': '\t', 'v': '\v'}
BUILT_IN = {'$end': 'YYEOF', '$undefined': 'YYUNDEF'}
# Bison's own tokens have the first three numbers
FIRST_OF_FILE = 3


def number(element, attribute):
    return int(element.get(attribute))


class Bison:
    """The grammar of an XML file: rules (rule, symbols, symbol of %prec or None), starts, tokens, and what is useless."""

    def __init__(self, path):
        grammar = ElementTree.parse(path).getroot().find('grammar')
        self.useful, self.useless, self.starts = [], [], []
        for rule in grammar.find('rules'):
            self.add(rule, [it.text or '' for it in rule.find('rhs').findall('symbol')])
        tokens = sorted(grammar.find('terminals'), key=lambda it: number(it, 'symbol-number'))
        self.tokens = [(it.get('name'), it.get('prec'), it.get('assoc')) for it in tokens]
        self.own_tokens = {it.get('name') for it in tokens if number(it, 'symbol-number') < FIRST_OF_FILE}
        self.useless_rules = [it.get('name') for it in grammar.find('nonterminals') if it.get('usefulness') != 'useful']
        self.unused_tokens = [it.get('name') for it in tokens if it.get('usefulness') != 'useful']

    def add(self, rule, symbols):
        head = rule.find('lhs').text
        if head == '$accept':
            self.starts.append(symbols[0] if len(symbols) == 2 else symbols[1])
        else:
            rules = self.useless if rule.get('usefulness') == 'useless-in-grammar' else self.useful
            rules.append((head, symbols, rule.get('percent_prec')))


def character(spelled):
    """The character of a literal, as Bison writes it."""
    if not spelled.startswith('\\'):
        return spelled
    if re.fullmatch(r'[0-7]{3}', spelled[1:]):
        return chr(int(spelled[1:], 8))
    return ESCAPED.get(spelled[1:], spelled[1:])


class Compared:
    """Compares a grammar with a tree."""

    def __init__(self, bison, tree):
        self.bison, self.tree = bison, tree
        self.by_alias = {token.alias[0]: n for n, token in tree.tokens.items() if token.alias}

    def name(self, shown):
        """The name in the tree of what Bison shows: tokens by their aliases, `@1` for a `$@1` whose value is used."""
        if re.fullmatch(r'\$?@\d+', shown):
            return '$' + shown.lstrip('$')
        if shown.startswith('"'):
            return self.by_alias.get(shown[1:-1], shown)
        if shown.startswith("'"):
            quoted = "'%s'" % character(shown[1:-1])
            return quoted if quoted in self.tree.tokens else quoted[1:-1]
        return BUILT_IN.get(shown, shown)

    def production(self, rule):
        head, symbols, precedence = rule
        return self.name(head), [*map(self.name, symbols)], precedence and self.name(precedence)

    def read_productions(self):
        heads = {index: n for n, rule in self.tree.rules.items() for index in rule.productions}
        return [(heads[i], [n for _, n, _ in p.symbols], p.precedence) for i, p in enumerate(self.tree.productions)]

    def difference(self):
        """The first difference, or None."""
        if len(self.bison.starts) > 1:
            return 'several start symbols'
        if self.name(self.bison.starts[0]) != self.tree.start[0]:
            return 'start: bison %s, here %s' % (self.bison.starts[0], self.tree.start[0])
        return self.rules_difference() or self.tokens_difference()

    def rules_difference(self):
        useful, useless = ([*map(self.production, rules)] for rules in (self.bison.useful, self.bison.useless))
        for one in self.read_productions():
            rules = useful if useful[:1] == [one] else useless
            if rules[:1] != [one]:
                bison = ' or '.join(map(shown, useful[:1] + useless[:1]))
                return 'here %s; bison %s' % (shown(one), bison or 'has no more')
            rules.pop(0)
        return 'only bison has %s' % shown((useful + useless)[0]) if useful + useless else None

    def tokens_difference(self):
        """The tokens, those of Bison's own apart, and the precedences. In Bison a later %token changes the order."""
        levels = {n: (level, associativity) for n, (level, associativity, _) in self.tree.precedences.items()}
        own = {'error', 'YYEOF', 'YYUNDEF', *map(self.name, self.bison.own_tokens)}
        bison = set()
        for token, level, associativity in self.bison.tokens:
            n = self.name(token)
            bison.add(n)
            read = level_of(level, associativity)
            if read != levels.get(n):
                return 'precedence of %s: bison %s, here %s' % (n, read, levels.get(n))
        other = bison.symmetric_difference(self.tree.tokens) - own
        return 'tokens of only one: %s' % ', '.join(sorted(other)) if other else None


def level_of(level, associativity):
    if level is None:
        return None
    return int(level) - 1, {'left': 'Left', 'right': 'Right'}.get(associativity, 'Nonassoc')


def shown(production):
    head, symbols, precedence = production
    return '%s:%s%s' % (head, ''.join(' ' + it for it in symbols), ' %%prec %s' % precedence if precedence else '')
