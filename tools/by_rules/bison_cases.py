"""Files of cases: texts, each with what it means by the rules. The form is that of files of rows."""
from .bison_faults import note_on


class Case:
    def __init__(self, name):
        self.name, self.parts, self.result, self.beside = name, [], [], None

    @property
    def text(self):
        return '\n'.join(self.parts).encode('utf-8')


def unmarked(text):
    """The text with each picture of a control character as that character."""
    return ''.join(chr(ord(c) - 0x2400) if 0x2400 <= ord(c) < 0x2420 else c for c in text)


def marked(text):
    return ''.join(chr(ord(c) + 0x2400) if ord(c) < 0x20 else c for c in text)


def cases_of(path):
    cases = []
    with open(path, encoding='utf-8') as file:
        lines = file.read().split('\n')
    for line in lines:
        word, _, rest = line.strip().partition(' ')
        if line.startswith('case '):
            cases.append(Case(rest))
        elif line.startswith('  ') and word == 'text':
            cases[-1].parts.append(unmarked(line[len('  text '):]))
        elif line.startswith('  ') and word == 'is':
            cases[-1].result.append(line[len('  is '):])
        elif line.startswith('  ') and word == 'beside':
            cases[-1].beside = rest
        elif line and not line.startswith('#') and word != 'note':
            raise ValueError('unknown line in %s: %s' % (path, line))
    return cases


def at(span):
    return '%d-%d' % span


def lines_of(t, tree, errors):
    """What a text means, line by line: its errors, or its grammar."""
    return [error_line(t, tree, error) for error in errors] or [marked(line) for line in grammar_lines(tree)]


def error_line(t, tree, error):
    parts = ['error', error.kind, *map(at, error.spans)]
    parts += [marked(error.name)] if error.name else []
    parts += ['found ' + error.found] if error.found else []
    parts += ['expected ' + ' '.join(error.expected)] if error.expected else []
    note = note_on(t, error, [*tree.rules, *tree.tokens])
    return ' '.join(parts) + (': ' + note if note and note.startswith('did') else '')


def grammar_lines(tree):
    yield 'start %s %s' % (tree.start[0], at(tree.start[1]))
    for word, number in (('expect', tree.expect), ('expect-rr', tree.expectrr)):
        if number:
            yield '%s %d %s' % (word, number[0], at(number[1]))
    if not tree.has_default_precedence:
        yield 'no default precedence'
    for n, token in tree.tokens.items():
        alias = ''
        if token.alias:
            alias = ', alias "%s" %s' % (token.alias[0], at(token.alias[1]))
        yield 'token %s %s%s' % (n, at(token.span), alias)
    for n, span in tree.unneeded:
        yield 'unneeded %s %s' % (n, at(span))
    for n, (level, associativity, span) in tree.precedences.items():
        only = ' only' if n in tree.only_precedence else ''
        yield 'precedence %s %s: %d %s%s' % (n, at(span), level, associativity, only)
    for n, rule in tree.rules.items():
        yield 'rule %s %s:%s' % (n, at(rule.span), ''.join(' %d' % it for it in rule.productions))
    for index, p in enumerate(tree.productions):
        yield production_line(index, p)
    if tree.programs is not None:
        yield 'programs "%s"' % tree.programs


def production_line(index, p):
    symbols = ''.join(' %s %s %s' % ('token' if is_token else 'rule', n, at(span)) for is_token, n, span in p.symbols)
    precedence = ', precedence of %s' % p.precedence if p.precedence else ''
    action = ', action "%s" %s' % (p.action[0], at(p.action[1])) if p.action else ''
    return 'production %d %s:%s%s%s' % (index, at(p.span), symbols, precedence, action)
