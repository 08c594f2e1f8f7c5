"""The states and conflicts of a tree, line by line, for files of cases."""
from .bison_cases import marked
from .bison_tree import read_bison
from .conflict_examples import example
from .conflicts import Conflicts


def named(symbols):
    return ' '.join(name for _, name in symbols)


def production_text(grammar, number):
    p = grammar.productions[number]
    return ('%s: %s' % (p.rule[1], named(p.symbols))).rstrip()


def item_text(grammar, item):
    p, read = grammar.productions[item[0]], item[1]
    return ' '.join(it for it in (p.rule[1] + ':', named(p.symbols[:read]), '.', named(p.symbols[read:])) if it)


def shortest_lists(states):
    """For each state a shortest list that leads to it."""
    found = {state: [] for state in states.numbers[:1]}
    todo = [*found]
    for state in todo:
        for symbol, to in states.after[state].items():
            if to not in found:
                found[to] = [*found[state], symbol]
                todo.append(to)
    return found


def lines_of(t):
    """The lines of a text in the syntax of Bison, with control characters as their pictures."""
    return [*map(marked, conflicts_lines(Conflicts(read_bison(t)[0])))]


def conflicts_lines(conflicts):
    """The counts, and the states in which the next token decides what to do: by a reduction or by something else."""
    yield '%d states, %d shift/reduce and %d reduce/reduce conflicts' % (
        len(conflicts.left), conflicts.shift_reduce, conflicts.reduce_reduce)
    lists = shortest_lists(conflicts.states)
    for state in conflicts.left:
        looks, has_shifts = conflicts.looks[state], any(it[0] for it in conflicts.states.after[state])
        if looks and (has_shifts or len(looks) > 1):
            yield 'state after %s' % (named(lists[state]) or 'nothing')
            yield from ('  ' + it for it in state_lines(conflicts, state))


def state_lines(conflicts, state):
    """The items whose symbols are all read, each with the tokens that look at it, those that have a token next, and what
    precedence settles or not.
    """
    grammar = conflicts.grammar
    for item in sorted(conflicts.states.items[state]):
        symbol, tokens = grammar.next(item), conflicts.looks[state].get(item[0], 0)
        if symbol is None:
            names = named(it for index, it in enumerate(grammar.tokens) if tokens >> index & 1)
            yield '%s [%s]' % (item_text(grammar, item), names)
        elif symbol[0]:
            yield item_text(grammar, item)
    for it in conflicts.actions:
        if it.state == state:
            yield from settled_lines(grammar, it)
            yield from conflict_lines(conflicts, it)


def settled_lines(grammar, actions):
    for number, wins in actions.settled:
        yield 'at %s precedence says %s, beside %s' % (actions.token[1], wins, production_text(grammar, number))


def conflict_lines(conflicts, actions):
    """The conflicts at a token, and an example of each two that are in conflict."""
    if not actions.is_shift_reduce and not actions.reduce_reduce:
        return
    reductions = [production_text(conflicts.grammar, it) for it in actions.reductions]
    ways = ['shift'] * actions.is_shift + ['reduce ' + it for it in reductions]
    yield 'at %s %s' % (actions.token[1], ' or '.join(ways))
    for other in range(1, len(reductions) if not actions.is_shift else 2):
        for side in example(conflicts, actions, other):
            yield '  %s, by %s' % (' '.join(filter(None, [named(side.prefix), '.', named(side.rest)])),
                                   item_text(conflicts.grammar, side.item))
