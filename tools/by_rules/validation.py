"""The errors of a text: "Validation" and "The list of errors"."""
from .faults import Fault
from .reader import read


def validate(tree):
    """The first fault of the tree, or None."""
    return next(every_fault(tree), None)


def every_fault(tree):
    """Each fault of the tree, in order."""
    if tree.start is None:
        yield Fault('NoStartRule', (0, 0))
    elif tree.start[0] not in tree.rules:
        yield Fault('InvalidStartRule', tree.start[1], tree.start[0])
    for rule in tree.rules.values():
        for index in rule.productions:
            yield from invalid_production(tree, tree.productions[index])
    for n, (key, _, _) in tree.printed.items():
        if n not in tree.tokens:
            yield Fault('UnknownEPP', key, n)
    yield from unknown_symbols(tree, tree.unused)


def invalid_production(tree, production):
    """The faults of a production. (A token of a %prec is always a known token, since %prec adds it.)"""
    if production.precedence is not None and production.precedence not in tree.precedences:
        yield Fault('NoPrecForToken', (0, 0), production.precedence)
    yield from unknown_symbols(tree, production.symbols)


def unknown_symbols(tree, symbols):
    return (unknown(symbol) for symbol in symbols if not is_known(tree, symbol))


def is_known(tree, symbol):
    is_token, n, _ = symbol
    return n in (tree.tokens if is_token else tree.rules)


def unknown(symbol):
    is_token, n, span = symbol
    return Fault('UnknownToken' if is_token else 'UnknownRuleRef', span, n)


def errors_of(kind, t):
    tree, faults = read(kind, t)
    fault = validate(tree)
    return tree, tree.duplicates() + faults + ([] if fault is None else [fault])
