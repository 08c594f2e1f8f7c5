"""What the Rust crate returns: the rules of docs/BEHAVIOUR.md, except for the lines of docs/DIFFERENCES.md that an answer on a text shows.

Each of these lines has a name here, the same as on that page. `answering_as` changes the rules by the lines of some names while a block
runs. Hashed maps have a different order in each run of the crate: it is read from the crate's answer, if it can be one.
"""
import re
from contextlib import ExitStack, contextmanager
from unittest import mock

from . import section, validation, words
from .costs import UNBOUNDED, Costs
from .faults import Fault, HeaderFault
from .grammar import Grammar, reachable

IN_READING = ('comment-closed-by-line-end', 'array-item', 'digits', 'nesting', 'space-after-bracket', 'letters')
IN_ANSWERS = ('added-productions', 'index-type', 'hashed-order', 'follow', 'least-costs', 'first-sentence', 'all-sentences',
              'greatest-costs')
DIFFERENCES = IN_READING + IN_ANSWERS
OF_VALUES = ('span-lines', 'column-inside', 'merge-theirs', 'marked-iteration')    # of lines and maps, by explained.py
LIMIT, STEPS = 65535, 500_000
KNOWN = {}                                          # the least costs found last, since finding them may take 65535 rounds


class Panics(Exception):
    """The crate panics."""


class NeverEnds(Exception):
    """The crate runs forever."""


# ---------------------------------------------------------------- differences in reading

COMMENT_END = re.compile(rb'[*\r\n]/')
LETTER = rb'[a-zA-Z]|\xc5\xbf|\xe2\x84\xaa'
SECTION_NAME = re.compile(rb'(?:%s)(?:%s|_)*' % (LETTER, LETTER))


def comment_end(t, p):
    found = COMMENT_END.search(t, p + 2)
    return found and found.end()


def number(t, p, read=section.number):
    try:
        return read(t, p)
    except HeaderFault:
        raise Panics from None


def array(t, p, brackets, read=section.array):
    """An array with an invalid item, or without an end, is read forever. Of nested arrays the innermost decides."""
    try:
        return read(t, p, brackets)
    except HeaderFault as fault:
        if fault.kind == 'InvalidEntry':
            raise
        raise NeverEnds from None


def entry(t, p, read=section.entry):
    """White space after an array isn't skipped."""
    (key, value), end = read(t, p)
    if value[0] == 'array':
        end = value[3][1]
    return (key, value), end


def entries(t, opening, found, read=section.entries):
    """White space is allowed before the `}` of the section, but not before a comma."""
    try:
        return read(t, opening, found)
    except HeaderFault as fault:
        end = section.white(t, fault.span[1])
        if fault.holds != ('}',) or end == fault.span[1]:
            raise
        if t.startswith(b'}', end):
            return end + 1
        if t.startswith(b'*', end):
            raise HeaderFault('UnexpectedToken', [(end, end + 1)], ('*', section.HINT)) from None
        raise HeaderFault('ExpectedToken', [(opening, end)], ('}',)) from None


# ---------------------------------------------------------------- differences in answers

class OriginalGrammar(Grammar):
    """The tables, with the productions of `~` in the order of the crate's answer, and with FOLLOW sets without some of the tokens."""

    def __init__(self, tree, names, answered):
        self.names, self.answered = names, answered
        Grammar.__init__(self, tree)

    def added(self):
        added = Grammar.added(self)
        implicit = added[1:-2]
        if 'hashed-order' in self.names and implicit:
            order = self.answered.implicit_tokens()
            if sorted(order) == sorted(index for (_, index), _ in implicit):
                tilde = implicit[0][1]
                added[1:-2] = [[('token', index), tilde] for index in order]
        return added

    def follows(self):
        """FIRST of the symbol right after a rule, and FOLLOW of the rule of the production if all after it is nullable."""
        if 'follow' not in self.names:
            return Grammar.follows(self)
        sets, nullable = self.firsts()
        after, ends = [set() for _ in self.rules], [set() for _ in self.rules]
        after[0].add(len(self.tokens))
        for p in self.productions:
            is_nullable, begins = True, set()
            for what, index in reversed(p.symbols):
                if what == 'rule':
                    after[index] |= begins
                    if is_nullable:
                        ends[p.rule].add(index)
                is_nullable = is_nullable and what == 'rule' and nullable[index]
                begins = {index} if what == 'token' else sets[index]
        follows = [set() for _ in self.rules]
        for rule, tokens in enumerate(after):
            for last in reachable(ends, [rule]) if tokens else ():
                follows[last] |= tokens
        return follows


class OriginalCosts(Costs):
    """Costs as rounds over the rules find them: each round sets the cost of a rule once the best of its productions is known."""

    def __init__(self, grammar, costs, names):
        Costs.__init__(self, grammar, costs)
        self.names = names
        self.least_in_crate = self.least_by_rounds() if 'least-costs' in names else None
        self.greatest_in_crate = self.greatest_by_rounds() if 'greatest-costs' in names else None

    def least_by_rounds(self):
        key = tuple(self.costs), tuple((p.rule, tuple(p.symbols)) for p in self.grammar.productions)
        if key not in KNOWN:
            KNOWN.clear()
            KNOWN[key] = self.rounds([0] * len(self.grammar.rules), self.settled_least)
        return KNOWN[key]

    def greatest_by_rounds(self):
        recursive = [rule in self.grammar.paths(rule) for rule in range(len(self.grammar.rules))]
        found = self.rounds([LIMIT if it else 0 for it in recursive], self.settled_greatest, recursive)
        return found if isinstance(found, str) else [UNBOUNDED if it == LIMIT else it for it in found]

    def rounds(self, costs, settle, done=None):
        done = done or [False] * len(costs)
        while not all(done):
            before = list(costs), list(done)
            for rule in range(len(costs)):
                if not done[rule]:
                    try:
                        costs[rule], done[rule] = settle(rule, costs, done)
                    except Panics:
                        return 'panics'
            if before == (costs, done):
                return 'no end'
        return costs

    def sums(self, rule, costs, done):
        """The costs so far of the productions of the rule, each with whether it is final."""
        for p in self.grammar.rules[rule].productions:
            yield (sum(self.costs[index] if what == 'token' else costs[index] for what, index in self.grammar.productions[p].symbols),
                   all(done[index] for index in self.rules_in(p)))

    def settled_least(self, rule, costs, done):
        sums = list(self.sums(rule, costs, done))
        if any(total > LIMIT for total, _ in sums):
            raise Panics
        known, open_ones = ([total for total, is_known in sums if is_known == it] for it in (True, False))
        if known and (not open_ones or min(known) < min(open_ones)):
            return min(known), True
        return (min(open_ones) if open_ones else costs[rule]), False

    def settled_greatest(self, rule, costs, done):
        known, open_ones = [], []
        for p in self.grammar.rules[rule].productions:
            total = 0
            for what, index in self.grammar.productions[p].symbols:
                if what == 'rule' and costs[index] == LIMIT:
                    known.append(LIMIT)
                    break
                total += self.costs[index] if what == 'token' else costs[index]
                if total >= LIMIT:
                    raise Panics
            else:
                (known if all(done[index] for index in self.rules_in(p)) else open_ones).append(total)
                continue
            break
        if known and (not open_ones or max(known) > max(open_ones)):
            return max(known), True
        return (max(open_ones) if open_ones else costs[rule]), False

    def all_first_in_crate(self):
        """The first sentence of each rule, or None if one takes too long, since all of them are requested from the crate at once."""
        if not hasattr(self, 'firsts_in_crate'):
            self.firsts_in_crate = []
            for rule in range(len(self.grammar.rules)):
                self.firsts_in_crate.append(self.first_in_crate(rule))
                if self.firsts_in_crate[-1] is None:
                    self.firsts_in_crate = None
                    break
        return self.firsts_in_crate

    def first_in_crate(self, rule):
        """A walk that continues after a rule before it replaces the rule, and then again: 2 to the n times for a production of n
        rules. None if that takes too long."""
        found, stack, left = [], [(self.cheapest[rule][0], 0)], STEPS
        while stack:
            left -= 1
            if not left:
                return None
            p, begin = stack.pop()
            for at, (what, index) in enumerate(self.grammar.productions[p].symbols[begin:], begin):
                if what == 'token':
                    found.append(index)
                else:
                    stack += [(p, at + 1), (self.cheapest[index][0], 0)]
        return found


class Answered:
    """The lines of the crate's answer: what differs from run to run is read from them."""

    def __init__(self, lines=()):
        self.lines = list(lines)

    def implicit_tokens(self):
        """The tokens of the productions of `~`, in the order of the first tables."""
        begin = next((at for at, line in enumerate(self.lines) if line.startswith('grammar over')), len(self.lines))
        end = next((at for at, line in enumerate(self.lines[begin:], begin) if line.startswith('    name ')), len(self.lines))
        found = (re.match(r'    production \d+ \S+ of rule 1, 2 symbols: token (\d+) rule 1; ~:', line)
                 for line in self.lines[begin:end])
        return [int(it[1]) for it in found if it]

    def unknown_form(self):
        """The span of the printed form of which the crate says that it has no token."""
        found = (re.match(r'    UnknownEPP\(.*\) \((\d+),(\d+)\) \d', line) for line in self.lines)
        return next(((int(it[1]), int(it[2])) for it in found if it), None)

    def sentences(self, rule):
        found = (re.match(r'    rule %d .*; all (.*)' % rule, line) for line in self.lines)
        return next((it[1] for it in found if it), None)


def validated(tree, answered, validate=validation.validate):
    """Of several printed forms without a token the one that the crate reported."""
    fault = validate(tree)
    if fault is not None and fault.kind == 'UnknownEPP':
        for n, (key, _, _) in tree.printed.items():
            if n not in tree.tokens and key == answered.unknown_form():
                return Fault('UnknownEPP', key, n)
    return fault


@contextmanager
def answering_as(names, answered):
    """The rules of reading with these differences, while a block runs."""
    changed = {
        'comment-closed-by-line-end': [(words, 'comment_end', comment_end)],
        'array-item': [(section, 'array', array)],
        'digits': [(section, 'number', number)],
        'nesting': [(section, 'MOST_BRACKETS', None)],
        'space-after-bracket': [(section, 'entry', entry), (section, 'entries', entries)],
        'letters': [(section, 'NAME', SECTION_NAME)],
        'hashed-order': [(validation, 'validate', lambda tree: validated(tree, answered))],
    }
    with ExitStack() as stack:
        for name in names:
            for module, attribute, value in changed.get(name, ()):
                stack.enter_context(mock.patch.object(module, attribute, value))
        yield
