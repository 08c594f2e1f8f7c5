"""What `cfglint --states` prints: the states of a grammar's parser before precedence settles anything, and the conflicts that are
left after that.
"""
from .conflict_findings import item_text, plain, production_text, token_text, tokens_text
from .conflicts import Conflicts
from .rendered import visible
from .states import Numbers


def states_text(tree):
    """The lines of all states."""
    conflicts = Conflicts(plain(tree))
    numbers = Numbers(conflicts.states)
    return [line for state in numbers.of for line in state_lines(conflicts, numbers, state)]


def state_lines(conflicts, numbers, state):
    """The items of a state, where symbols lead from it, what is reduced, and the tokens with a conflict."""
    grammar = conflicts.grammar
    items = sorted(conflicts.states.items[state], key=lambda it: (-it[1], it[0]))
    yield 'State %d' % numbers.of[state]
    yield from ('  ' + item_text(grammar, it) for it in items if is_shown(grammar, it))
    for symbol, to in numbers.targets[state]:
        by = 'at ' + token_text(grammar, grammar.tokens.index(symbol)) if symbol[0] else 'after ' + visible(symbol[1])
        yield '    %s: go to state %d' % (by, numbers.of[to])
    for number, _ in (it for it in items if it[1] == len(grammar.own_symbols(it[0]))):
        yield '    at %s: %s' % (tokens_text(grammar, tokens_at(conflicts, state, number)), action_text(grammar, number))
    for it in conflicts.conflicts:
        if it.state == state:
            yield '    conflict at ' + token_text(grammar, grammar.tokens.index(it.token))


def is_shown(grammar, item):
    """Whether an item is more than what follows from the others: it has something read, or is the start, or is reduced."""
    return item[1] > 0 or item[0] == grammar.added or not grammar.productions[item[0]].symbols


def tokens_at(conflicts, state, number):
    """The indices of the tokens at which a production is reduced. The added one is at the end."""
    grammar = conflicts.grammar
    tokens = conflicts.looks[state].get(number, 0)
    return [index for index, it in enumerate(grammar.tokens)
            if (it == grammar.end if number == grammar.added else tokens >> index & 1)]


def action_text(grammar, number):
    return 'accept' if number == grammar.added else 'reduce  ' + production_text(grammar, number)
