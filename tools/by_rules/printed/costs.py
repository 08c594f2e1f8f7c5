"""What is printed of rows on costs. by_rules/costs.py has the costs of sentences.

The rules leave open which of the cheapest productions is chosen for a rule, and how often a production is opened. These are taken
from the program's output if they are right. If not, other ones are printed, so that the two differ.
"""
import re
import sys

from . import texts as rows
from ..costs import LIMIT, UNBOUNDED, Costs
from ..grammar import Grammar
from ..validation import errors_of

LISTED, WRITTEN = 20, 20
REFUSED = {'none': 'the rule has no sentence', 'too large': 'the cost is more than 65535'}


def read_printed():
    """The lines that the program printed for each row, by their texts up to a colon."""
    found, name, lines = {}, '', {}
    for line in sys.stdin.read().splitlines():
        if line.startswith('== '):
            name, lines = line[3:], {}
        elif re.match(r'    (rule|opened|costs of) ', line):
            found[name] = lines
            lines[line.partition(':')[0]] = line
    return found


def cost_text(cost, refused='too large'):
    if cost is None:
        return 'none'
    if cost == UNBOUNDED:
        return 'unbounded'
    return str(cost) if cost <= LIMIT else refused


def tokens_text(sentence):
    if len(sentence) > WRITTEN:
        return '%d tokens' % len(sentence)
    return '[%s]' % ' '.join(map(str, sentence))


class Results:
    def __init__(self, row, grammar, lines):
        self.row, self.g, self.lines = row, grammar, lines
        self.is_plain = row.show == 'without-memory'
        requests = dict(row.requests)
        self.names = requests.get('sentences')
        listed = [int(it) for it in requests.get('costs', [])]
        each = int(requests.get('cost', ['1'])[0])
        tokens = len(grammar.tokens) + 1
        self.c = Costs(grammar, (listed + [each] * tokens)[:tokens])
        self.choices = self.right_choices()
        self.first = self.c.first_sentences()

    def label(self, rule):
        return '    costs of %d' % rule if self.is_plain else '    rule %d %s' % (rule, self.g.rules[rule].name)

    def printed(self, rule, pattern):
        """What the program printed for a rule where the pattern has its group, or None."""
        found = re.search(pattern, self.lines.get(self.label(rule), ''))
        return found and found[1]

    def right_choices(self):
        """The choices of the program if they are right, or else others."""
        found = {}
        for rule in range(len(self.g.rules)):
            choice = self.printed(rule, r'; production (\d+ at \d+)(?:;|$)')
            if choice:
                found[rule] = tuple(map(int, choice.split(' at ')))
        rules = range(len(self.g.rules))
        least = [self.c.least[rule] if self.c.has_cost(rule) else None for rule in rules]
        in_turn = sorted(found, key=lambda rule: found[rule][1])
        costs = [least[rule] for rule in in_turn]
        is_right = [found[rule][1] for rule in in_turn] == list(range(len(in_turn))) \
            and None not in costs and costs == sorted(costs) and len(costs) == len(least) - least.count(None) \
            and self.c.reaches(least, [found.get(rule) for rule in rules])
        return found if is_right else self.c.choices()

    def sentences_text(self, rule):
        is_requested = self.names is None or self.g.rules[rule].name in self.names
        if not self.c.has_cost(rule):
            refusal = cost_text(self.c.least[rule])
            return 'production none; sentence ' + refusal + ('; all ' + refusal if is_requested else '')
        out = 'production %d at %d; sentence %s' % (self.choices[rule] + (tokens_text(self.first[rule]),))
        if not is_requested:
            return out
        listed = self.c.minimal_sentences(rule)
        if len(listed) > LISTED:
            return '%s; all %d' % (out, len(listed))
        return '%s; all %s' % (out, ' '.join(map(tokens_text, listed)))

    def rule_line(self, rule):
        rest = 'production %d at %d' % self.choices[rule] if self.is_plain and self.c.has_cost(rule) else self.sentences_text(rule)
        return '%s: least %s, greatest %s; %s' % (
            self.label(rule), cost_text(self.c.least[rule]), cost_text(self.c.greatest[rule]), rest)

    def tokens_line(self):
        return '    tokens:' + ''.join(
            ' %s %d' % (rows.quoted_debug(name), self.c.costs[i]) for i, (name, _) in enumerate(self.g.tokens)) + (
            ' end %d' % self.c.costs[-1])

    # ------------------------------------------------------------ what a row requests

    def checked(self, text):
        """The verdict of the checkers on a list of costs, or on a list of choices after `by`."""
        costs, by, choices = text.partition(' by ')
        least = [None if it == 'none' else int(it) for it in costs.split(' ')]
        if not by:
            return self.c.covers(least)
        pairs = [None if it == 'none' else tuple(map(int, it.split(':'))) for it in choices.split(' ')]
        return self.c.reaches(least, pairs)

    def opened_line(self):
        """How often each production was opened: once if it has no rules, and never more often than the bound."""
        label = '    opened for firsts'
        printed = re.findall(r' (\d+)', self.lines.get(label, '').partition(':')[2])
        bound = len(self.g.rules) * (len(self.g.tokens) + 2) + 1
        most = [bound if self.c.rules_in(p) else 1 for p in range(len(self.g.productions))]
        is_right = len(printed) == len(most) and all(1 <= int(it) <= limit for it, limit in zip(printed, most))
        return '%s: %s' % (label, ' '.join(printed) if is_right else 'at most ' + ' '.join(map(str, most)))

    def walked(self, name):
        """How many productions are opened to find the sentence of the rule: no fewer than derive it, and no more than the
        bound."""
        names = [rule.name for rule in self.g.rules]
        if name not in names:
            return 'no such rule'
        rule = names.index(name)
        fewest = self.c.fewest_openings(self.first).get(rule, 0)
        most = 1 + len(self.first[rule]) * len(names) if fewest else 0
        printed = self.lines.get('    opened ' + name, '').rpartition(': ')[2]
        return printed if printed.isdigit() and fewest <= int(printed) <= most else str(fewest)

    def refused(self, name):
        """The messages of the errors if the costs of the rule are refused."""
        names = [rule.name for rule in self.g.rules]
        if name not in names:
            return ': no such rule'
        rule = names.index(name)
        costs = {'least': self.c.least[rule], 'greatest': self.c.greatest[rule]}
        return ''.join('; %s: %s' % (which, REFUSED[cost_text(cost)]) for which, cost in costs.items() if cost_text(cost) in REFUSED)

    def request_lines(self):
        out = []
        for what, rest in self.row.requests:
            if what in ('least', 'choices'):
                text = ' '.join(rest)
                out.append('    %s %s: %s' % (what, text, str(self.checked(text)).lower()))
            elif what == 'openings':
                out.append(self.opened_line())
            elif what == 'opened':
                out.append('    opened %s: %s' % (rest[0], self.walked(rest[0])))
            elif what == 'refused':
                out.append('    refused %s%s' % (rest[0], self.refused(rest[0])))
        return out

    def all_lines(self):
        lines = map(self.rule_line, range(len(self.g.rules)))
        if self.is_plain:
            return [rows.WITHOUT_MEMORY, '    least: true, reached: true', *lines]
        return [self.tokens_line(), *lines, *self.request_lines()]


def results(row, lines):
    t, kind = row.text(), rows.KINDS[row.kind].partition('(')[0]
    out = ['text of %d bytes, %s' % (len(t), rows.KINDS[row.kind])]
    if row.show != 'brief':
        out += ['    |' + rows.mark(line) for line in t.decode('utf-8').split('\n')]
    tree, errors = errors_of(kind, t)
    return out + (['no grammar'] if errors else Results(row, Grammar(tree), lines).all_lines())


def printed(paths):
    """What is printed of the rows in these files, row by row."""
    lines = read_printed()
    for path in paths:
        for row in rows.read_rows(path):
            found = results(row, lines.get(row.name, {}))
            if row.show == 'digest':
                found = rows.digest_lines(row, found)
            head = ['== ' + row.name] + ['   ' + note for note in row.notes]
            yield '\n'.join(head + found) + '\n\n'
