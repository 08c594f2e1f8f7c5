"""What is useless in a grammar: as Bison says it, and as the findings of `cfglint` do."""
from collections import Counter

from .bison_tree import read_bison
from .findings import unproductive, unused, useless
from .grammar import Grammar
from .rendered import visible

# what explains differences
OWN = 'only here is a token unused that is one of Bison itself'
NAMED = 'only here is a token useless that a %prec names too'
LISTED = 'only Bison has a useless rule that only lists such as those of %type name'


class Useless:
    """The useless rules of a grammar, its useless productions, each as (rule, symbols), and its unused tokens."""

    def __init__(self, rules, productions, tokens):
        self.rules, self.productions, self.tokens = set(rules), Counter(productions), set(tokens)

    def count(self):
        return len(self.rules) + len(self.tokens) + sum(self.productions.values())


def of_findings(t):
    """What the findings of a file say."""
    tree, _ = read_bison(t)
    grammar = Grammar(tree)
    found = unused(tree) + unproductive(tree, grammar) + useless(grammar)
    rule_at = {rule.span: name for name, rule in tree.rules.items()}
    token_at = {span: name for name, span in tree.tokens.items()}
    rules = {rule_at[span] for it in found if is_on_rules(it) for span in it.spans}
    tokens = {token_at[it.spans[0]] for it in found if it.kind == 'UnusedToken' or it.text.startswith('Token ')}
    unusable = {it.spans[0] for it in found if it.kind == 'UnusableProduction'}
    productions = [(name, tuple(n for _, n, _ in p.symbols)) for name, rule in tree.rules.items()
                   for p in map(tree.productions.__getitem__, rule.productions) if name in rules or p.span in unusable]
    return Useless(rules, productions, tokens)


def is_on_rules(finding):
    is_useless_rule = finding.kind == 'UselessSymbol' and finding.text.startswith('Rule ')
    return finding.kind in ('UnusedRule', 'NoSentence', 'UnusableRule') or is_useless_rule


def of_bison(compared):
    """What Bison says, with the names of the tree."""
    bison = compared.bison
    productions = [(head, tuple(symbols)) for head, symbols, _ in map(compared.production, bison.useless)]
    return Useless(map(compared.name, bison.useless_rules), productions, map(compared.name, bison.unused_tokens))


def differences(compared, t):
    """How the two differ, each as whether it is explained, and by what or else what it is; and how much is useless here.
    """
    bison, here = of_bison(compared), of_findings(t)
    found = [of_token(compared, name) for name in sorted(here.tokens - bison.tokens)]
    found += [(False, "only Bison has the unused token '%s'" % visible(it)) for it in sorted(bison.tokens - here.tokens)]
    found += [of_rule(compared, name) for name in sorted(bison.rules - here.rules)]
    found += [(False, "only here is rule '%s' useless" % name) for name in sorted(here.rules - bison.rules)]
    for one, other, which in ((bison, here, 'only Bison has'), (here, bison, 'only here is')):
        productions = one.productions - other.productions
        found += [(False, "%s a useless production of '%s'" % (which, name)) for name, _ in productions]
    return found, here.count()


def of_token(compared, name):
    """Why only the findings say that a token is unused."""
    if name in ('error', 'YYEOF', 'YYUNDEF') or name in {*map(compared.name, compared.bison.own_tokens)}:
        return True, OWN
    if name in {it.precedence for it in compared.tree.productions}:
        return True, NAMED
    return False, "only here is token '%s' unused" % visible(name)


def of_rule(compared, name):
    """Why only Bison says that a rule is useless."""
    is_listed = name not in compared.tree.rules
    return is_listed, LISTED if is_listed else "only Bison has the useless rule '%s'" % name
