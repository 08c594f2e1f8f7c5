"""The warnings of a tree: unused rules and tokens."""

TEXTS = {'UnusedRule': 'Unused rule', 'UnusedToken': 'Unused token'}


def used(tree):
    """The names of the rules and of the tokens that are reachable from the start rule."""
    rules, tokens = set(), set()
    found = set() if tree.start is None else {tree.start[0]}
    while found:
        rules |= found
        held = [symbol for n in found if n in tree.rules
                for index in tree.rules[n].productions for symbol in tree.productions[index].symbols]
        tokens |= {n for is_token, n, _ in held if is_token}
        found = {n for is_token, n, _ in held if not is_token} - rules
    return rules, tokens


def unused_of(tree):
    """[(kind, name, span)], of rules and then of tokens, in order."""
    rules, tokens = used(tree)
    rules |= {n for is_token, n, _ in tree.unused if not is_token}
    tokens |= {n for is_token, n, _ in tree.unused if is_token} | set(tree.implicit_tokens or {})
    return ([('UnusedRule', n, rule.span) for n, rule in tree.rules.items() if n not in rules]
            + [('UnusedToken', n, span) for n, span in tree.tokens.items() if n not in tokens])


def warnings_of(tree):
    """[(kind, span)], in the same order."""
    return [(kind, span) for kind, _, span in unused_of(tree)]
