"""The rows in a file of rows, and what is printed of those on texts of grammars and of sections.

The files of a row are in the folder above that of its file of rows.
"""
import copy
import os
import re
import sys
import unicodedata

from ..faults import Fault, HeaderFault, position
from ..grammar import Grammar
from ..rendered import rendered
from ..section import entry, kind_of, named_kind, section
from ..unused import TEXTS, warnings_of
from ..validation import errors_of

# ---------------------------------------------------------------- row files (docs/ROWS.md)

TYPES = ('row', 'section', 'generator', 'cuts', 'lint', 'lint-program')
TEXT = ('text', 'then', 'times', 'file')
SHOWN = ('all', 'brief', 'cuts', 'accessors', 'entries', 'kinds', 'digest', 'rendered', 'without-memory')
REQUESTS = ('set', 'path', 'paths', 'names', 'start', 'cost', 'costs', 'sentences', 'least', 'choices', 'openings', 'opened',
            'refused', 'words', 'input', 'room', 'step', 'full', 'interrupts', 'no-space',
            'over-quota', 'too-large', 'blocks', 'terminal', 'no-color', 'rooms', 'only', 'bytes')
KINDS = {
    'original-noaction': 'Original(NoAction)',
    'original-useraction': 'Original(UserAction)',
    'original-genericparsetree': 'Original(GenericParseTree)',
    'grmtools': 'Grmtools',
    'eco': 'Eco',
    'section': None,                               # the kind that the text names
}


def unmark(s):
    return s.replace('\u240d', '\r').replace('\u240a', '\n').replace('\u2409', '\t')


def mark(s):
    return s.replace('\r', '\u240d').replace('\t', '\u2409')


class Row:
    def __init__(self, ty, name):
        self.type, self.name = ty, name
        self.kind, self.show, self.notes, self.requests, self.lines = 'original-genericparsetree', 'all', [], [], []
        self.parts, self.has_text = [], False

    def add(self, word, rest, directory):
        if word == 'kind':
            assert rest in KINDS, rest
            self.kind = rest
        elif word in TEXT:
            self.add_text(word, rest, directory)
        elif word == 'note':
            self.notes.append(rest)
        elif word == 'show':
            assert rest in SHOWN, rest
            self.show = rest
        elif word in REQUESTS:
            self.requests.append((word, rest.split(' ')))
        elif word == 'line':
            self.lines.append(rest)
        else:
            raise ValueError('unknown keyword %r in row %s' % (word, self.name))

    def add_text(self, word, rest, directory):
        if word == 'text':                         # after another part, with an LF between
            self.parts.append(('\n' if self.has_text else '') + unmark(rest))
        elif word == 'file':
            with open(os.path.join(directory, rest), 'rb') as f:
                self.parts.append(f.read().decode('utf-8'))
        elif word == 'times':
            n, _, line = rest.partition(' ')
            self.parts.extend(unmark(line).replace('#', str(i)) for i in range(int(n)))
        else:
            self.parts.append(unmark(rest))
        self.has_text = True

    def text(self):
        return ''.join(self.parts).encode('utf-8')


def row_lines(path):
    with open(path, 'rb') as f:
        return f.read().decode('utf-8').split('\n')


def texts_of(lines, directory):
    """The names of rows of any type, each with the text of the row."""
    rows = []
    for line in lines:
        if line.startswith('  '):
            word, _, rest = line[2:].partition(' ')
            if word in TEXT:
                rows[-1].add_text(word, rest, directory)
        elif line and not line.startswith('#'):
            rows.append(Row('row', line.partition(' ')[2]))
    return [(row.name, row.text()) for row in rows]


def read_rows(path):
    rows = []
    for line in row_lines(path):
        if line == '' or line.startswith('#'):
            continue
        if line.startswith('  '):
            word, _, rest = line[2:].partition(' ')
            rows[-1].add(word, rest, rows[-1].directory)
        else:
            ty, _, name = line.partition(' ')
            assert ty in TYPES and re.fullmatch('[a-z0-9-]+', name), line
            rows.append(Row(ty, name))
            rows[-1].directory = os.path.dirname(os.path.dirname(os.path.abspath(path)))
    if not rows:
        sys.exit(f'{path} has no rows')
    return rows


# ---------------------------------------------------------------- pieces of the output

LIMITS = (('u8', 255), ('u16', 65535), ('u32', 4294967295))


def quoted_debug(s):
    """As Rust's Debug of str: quotes, backslashes, characters that aren't printable or extend a grapheme are escaped."""
    out = []
    for c in s:
        if c in '"\\':
            out.append('\\' + c)
        elif c in '\t\r\n\0':
            out.append({'\t': '\\t', '\r': '\\r', '\n': '\\n', '\0': '\\0'}[c])
        elif c != ' ' and unicodedata.category(c) in ('Cc', 'Cf', 'Cs', 'Co', 'Cn', 'Zl', 'Zp', 'Zs', 'Mn', 'Me'):
            out.append('\\u{%x}' % ord(c))
        else:
            out.append(c)
    return '"' + ''.join(out) + '"'


def span_text(span):
    return '(%d,%d)' % span


def spanned_text(text, span):
    return '%s %s' % (quoted_debug(text), span_text(span))


def argument_debug(text):
    """As Rust's Debug of a char, which is one character here, and of str."""
    return "'%s'" % text if len(text) == 1 else quoted_debug(text)


def header_kind_text(error):
    arguments = ', '.join(map(argument_debug, error.holds))
    return error.kind + ('(%s)' % arguments if arguments else '')


def kind_text(error):
    if isinstance(error, HeaderFault):
        return 'Header(%s, %s)' % (header_kind_text(error), error.spans_kind())
    return error.kind if error.name is None else '%s(%s)' % (error.kind, quoted_debug(error.name))


def short(error):
    return ' '.join([kind_text(error), *map(span_text, error.spans)])


def indices(numbers):
    return ''.join(' %d' % number for number in numbers)


def level_text(precedence):
    return '%d %s' % precedence


# ---------------------------------------------------------------- the transcript

def error_lines(t, errors):
    return ['    %s %d:%d %s: %s' % ((short(e),) + position(t, e.span[0]) + (e.spans_kind(), e.display()))
            for e in errors]


def settings_lines(settings):
    """The settings of a file for its parser, as its tree and its grammar have them."""
    out = []
    if settings.param is not None:
        out.append('    parse-param %s %s' % tuple(map(quoted_debug, settings.param)))
    if settings.generics is not None:
        out.append('    parse-generics %s' % quoted_debug(settings.generics))
    if settings.programs is not None:
        out.append('    programs %s' % quoted_debug(settings.programs))
    return out


def symbol_text(symbol):
    is_token, n, span = symbol
    return '%s %s' % ('token' if is_token else 'rule', spanned_text(n, span))


def token_settings_lines(tree):
    out = ['    precedence %s: %s' % (spanned_text(n, precedence[2]), level_text(precedence[:2]))
           for n, precedence in tree.precedences.items()]
    out += ['    epp %s: %s' % (spanned_text(n, key), spanned_text(text, span))
            for n, (key, text, span) in tree.printed.items()]
    for word, table in (('avoid_insert', tree.avoid_insert), ('implicit_tokens', tree.implicit_tokens)):
        if table is not None:
            out.append('    %s:%s' % (word, ''.join(' ' + spanned_text(n, span) for n, span in table.items())))
    return out


def syntax_lines(tree):
    out = []
    if tree.start is not None:
        out.append('    start ' + spanned_text(*tree.start))
    for word, number in (('expect', tree.expect), ('expect-rr', tree.expectrr)):
        if number is not None:
            out.append('    %s %d %s' % (word, number[0], span_text(number[1])))
    out += settings_lines(tree)
    out += ['    expect-unused ' + symbol_text(symbol) for symbol in tree.unused]
    out += token_settings_lines(tree)
    for n, rule in tree.rules.items():
        out.append('    rule %s:%s%s' % (spanned_text(n, rule.span), indices(rule.productions), type_text(rule)))
    for i, p in enumerate(tree.productions):
        out.append('    production %d %s:%s%s%s' % (
            i, span_text(p.span), ''.join(' ' + symbol_text(symbol) for symbol in p.symbols),
            '' if p.precedence is None else ', precedence of ' + quoted_debug(p.precedence), action_text(p)))
    for i, (n, span) in enumerate(tree.tokens.items()):
        out.append('    token %d %s%s' % (i, spanned_text(n, span), ' declared' if n in tree.declared else ''))
    return out


def warnings_line(tree):
    warnings = ['%s %s' % (kind, span_text(span)) for kind, span in warnings_of(tree)]
    return 'warnings: ' + (', '.join(warnings) or 'none')


def type_text(rule):
    return '' if rule.action_type is None else ', type ' + quoted_debug(rule.action_type)


def action_text(production):
    return '' if production.action is None else ', action ' + spanned_text(*production.action)


def first_lines(sets, nullable):
    return ['    first of %d:%s%s' % (i, indices(sorted(tokens)), ' empty' if nullable[i] else '')
            for i, tokens in enumerate(sets)]


def follow_lines(follows):
    return ['    follow of %d:%s' % (i, indices(sorted(tokens))) for i, tokens in enumerate(follows)]


def length_lines(g):
    out = ['    rules %d, start 0; productions %d, start %d; tokens %d, end %d%s' % (
        len(g.rules), len(g.productions), g.start_production, len(g.tokens) + 1, len(g.tokens),
        '; implicit tokens in %d' % g.rule_index['~'] if g.has_implicit else '')]
    for word, number in (('expect', g.tree.expect), ('expect-rr', g.tree.expectrr)):
        if number is not None:
            out.append('    %s %d' % (word, number[0]))
    return out + settings_lines(g.tree)


def precedence_text(precedence):
    return '' if precedence is None else ', precedence ' + level_text(precedence)


def token_text(g, n):
    """What a token has beside its name and its span."""
    printed = g.printed(n)
    return precedence_text(g.token_precedence(n)) + ('' if printed == n else ', epp ' + quoted_debug(printed)) + (
        ', avoid_insert' if g.is_avoided(n) else '')


def printed_text(g, p):
    return '; %s:%s' % (g.rules[p.rule].name, ''.join(' "%s"' % mark(g.symbol_name(s)) for s in p.symbols))


def grammar_lines(g, printed=printed_text):
    out = length_lines(g)
    for i, rule in enumerate(g.rules):
        out.append('    rule %d %s:%s%s' % (
            i, spanned_text(rule.name, rule.span), indices(rule.productions), type_text(rule)))
    for i, p in enumerate(g.productions):
        out.append('    production %d %s of rule %d, %d symbols:%s%s%s%s' % (
            i, span_text(p.span), p.rule, len(p.symbols), ''.join(' %s %d' % s for s in p.symbols),
            printed(g, p), precedence_text(p.precedence), action_text(p)))
    for i, (n, span) in enumerate(g.tokens):
        out.append('    token %d %s%s' % (i, spanned_text(n, span), token_text(g, n)))
    out.append('    token %d' % len(g.tokens))
    for n in [r.name for r in g.rules] + [n for n, _ in g.tokens] + ['']:
        found = (['rule %d' % g.rule_index[n]] if n in g.rule_index else []) + \
                (['token %d' % g.token_index[n]] if n in g.token_index else [])
        out.append('    name %s: %s' % (quoted_debug(n), ' '.join(found) or 'nothing'))
    return out + first_lines(*g.firsts()) + follow_lines(g.follows())


def request_lines(g, requests):
    """The results of the bits to set, the paths and the names that a row requests."""
    out = []
    sets, nullable = g.firsts()
    for word, rest in requests:
        if word == 'set':
            rule, token = int(rest[0]), int(rest[1])
            out.append('set(%d, %d): %s, and again: true' % (rule, token, str(token in sets[rule]).lower()))
            changed = [tokens | {token} if i == rule else tokens for i, tokens in enumerate(sets)]
            out += first_lines(changed, nullable)
        elif word == 'path':
            first, second = (g.rule_index[name] for name in rest)
            out.append('path %s %s: %s' % (rest[0], rest[1], str(second in g.paths(first)).lower()))
        elif word == 'paths':
            out += ['paths of %s:%s' % (rule.name, ''.join(' ' + g.rules[to].name for to in sorted(g.paths(i))))
                    for i, rule in enumerate(g.rules)]
        elif word == 'names':
            rest = [n for n in rest if n]
            unknown = [i for i, n in enumerate(rest) if n not in g.token_index]
            missing = [i for i, (n, _) in enumerate(g.tokens) if n not in rest]
            out.append('names [%s]: LexReport { unknown: %s, missing: [%s] }' % (
                ', '.join(map(quoted_debug, rest)), unknown, ', '.join('TIdx(%d)' % i for i in missing)))
    return out


def start_lines(t, errors, tree, requests):
    """The results of each other start that a row requests."""
    out = []
    for name, start, end in [rest for word, rest in requests if word == 'start']:
        out.append('start %s %s %s' % (name, start, end))
        if name in tree.rules:
            changed = copy.copy(tree)
            changed.start = name, (int(start), int(end))
            out += tree_lines(t, errors, changed)
            out += ['grammar over u32' + (': refused' if errors else '')] + ([] if errors else grammar_lines(Grammar(changed)))
        else:
            out.append("    Start rule '%s' does not appear in grammar" % name)
    return out


def tree_lines(t, errors, tree):
    found = ['errors'] + error_lines(t, errors) if errors else ['errors: none']
    return found + ['syntax'] + syntax_lines(tree) + [warnings_line(tree)]


def refusals(errors, tree):
    """For each index type the errors over it (those of the text, or StorageTooSmall), and the grammar."""
    if errors:
        return None, [(ty, errors) for ty, _ in LIMITS]
    g = Grammar(tree)
    return g, [(ty, [] if g.fits(limit) else [Fault('StorageTooSmall', (0, 0))]) for ty, limit in LIMITS]


def tables_lines(t, errors, by_type, lines_of_tables):
    """The lines of the tables over each index type, once if they are the same."""
    blocks = []
    for ty, refused in by_type:
        if refused:
            blocks.append((ty, ': refused', [] if errors else error_lines(t, refused)))
        else:
            blocks.append((ty, '', lines_of_tables()))
    if all(b[1:] == blocks[0][1:] for b in blocks):
        blocks = [('u8, u16 and u32',) + blocks[0][1:]]
    return [line for ty, how, lines in blocks for line in ['grammar over %s%s' % (ty, how), *lines]]


def brief_lines(g):
    sets, nullable = g.firsts()
    return length_lines(g) + [
        '    firsts of %d tokens, %d rules empty' % (sum(map(len, sets)), sum(nullable)),
        '    follows of %d tokens' % sum(map(len, g.follows()))]


def digest_lines(row, results):
    """The size of the results of a large row, their FNV-1a hash, and for each prefix that the row names the first line with it."""
    text = ''.join(line + '\n' for line in results)
    lines, whole = text[:-1].split('\n'), text.encode('utf-8')
    digest = 0xcbf29ce484222325
    for byte in whole:
        digest = (digest ^ byte) * 0x100000001b3 & 0xffffffffffffffff
    out = ['    %d lines of %d bytes, digest %016x' % (len(lines), len(whole), digest)]
    for prefix in row.lines:
        line = next(line.lstrip(' ') for line in lines if line.lstrip(' ').startswith(prefix))
        out.append('    |' + line[:100] + (' ..' if len(line) > 100 else ''))
    return out


def or_none(show, value):
    return 'none' if value is None else show(value)


def accessor_lines(g):
    """The results of the accessors of each rule, production and token, and of the grammar, also if there are none."""
    out = ['    rule %d: rule_name %s, rule_name_str %s, actiontype %s' % (
        i, quoted_debug(rule.name), quoted_debug(rule.name), or_none(quoted_debug, rule.action_type))
        for i, rule in enumerate(g.rules)]
    for i, p in enumerate(g.productions):
        text, span = p.action or (None, None)
        out.append('    production %d: action %s, action_span %s, prod_precedence %s' % (
            i, or_none(quoted_debug, text), or_none(span_text, span), or_none(level_text, p.precedence)))
    for i, n in enumerate([n for n, _ in g.tokens] + [None]):
        out.append('    token %d: token_epp %s, token_precedence %s, avoid_insert %s' % (
            i, or_none(quoted_debug, g.printed(n)), or_none(level_text, g.token_precedence(n)),
            str(g.is_avoided(n)).lower()))
    numbers = [('implicit_rule', g.rule_index['~'] if g.has_implicit else None)]
    numbers += [(word, number and number[0]) for word, number in (('expect', g.tree.expect), ('expectrr', g.tree.expectrr))]
    texts = (('parse_generics', g.tree.generics), ('programs', g.tree.programs))
    return out + ['    ' + ', '.join(
        ['%s %s' % (word, or_none(str, number)) for word, number in numbers]
        + ['parse_param ' + or_none(lambda param: '%s %s' % tuple(map(quoted_debug, param)), g.tree.param)]
        + ['%s %s' % (word, or_none(quoted_debug, text)) for word, text in texts])]


WITHOUT_MEMORY = 'without memory'                  # after this line no call allocates


def opened_lines(g):
    """The results on the productions of a grammar if that of the start is opened, and on the end token in the start's FIRST set."""
    opened = [int(i == g.start_production) for i in range(len(g.productions))]
    start = g.productions[g.start_production]
    return ['    opens one of rule %d, symbols %d, rules %d, tokens %d, opened%s; all 1' % (
        start.rule, len(start.symbols), len(g.rules), len(g.tokens) + 1, indices(opened)),
        '    end token set: false, and again: true']


def plain_lines(kind, tree, errors):
    """The results of calls on a text and its grammar that don't allocate."""
    g = None if errors else Grammar(tree)
    of_grammar = [] if errors else [WITHOUT_MEMORY] + grammar_lines(g, lambda g, p: '') + opened_lines(g)
    read = 'valid: %s, %s, errors:%s' % (str(not errors).lower(), kind, ''.join(' ' + short(e) for e in errors))
    return of_grammar + [WITHOUT_MEMORY, read] + syntax_lines(tree)


def rendered_lines(t, tree, errors):
    """Errors and warnings as people read them."""
    messages = [(error.display(), error.spans, error.spans_kind()) for error in errors]
    messages += [(TEXTS[kind], [span], 'Error') for kind, span in warnings_of(tree)]
    return [line for it in messages for line in rendered('g.y', t, *it)]


def family(kind):
    """Original, Grmtools or Eco: as what a text of the kind is read."""
    return kind.partition('(')[0]


def cut(named, t, n):
    """Whether the first n bytes are a grammar, how many errors they have, and the line with the errors and the sizes of the tree."""
    kind, errors = named_kind(t[:n]) if named is None else (named, [])
    if kind is None:
        return False, len(errors), '    %d:%s; no kind' % (n, ''.join(' ' + short(e) for e in errors))
    tree, errors = errors_of(family(kind), t[:n])
    out = '    %d:%s; %d rules, %d productions, %d tokens' % (
        n, ''.join(' ' + short(e) for e in errors), len(tree.rules), len(tree.productions), len(tree.tokens))
    for word, table in (('precedences', tree.precedences or None), ('epp', tree.printed or None),
                        ('avoid_insert', tree.avoid_insert), ('implicit_tokens', tree.implicit_tokens),
                        ('expect-unused', tree.unused or None)):
        out += '' if table is None else ', %d %s' % (len(table), word)
    for word, text in (('parse-param', tree.param), ('parse-generics', tree.generics), ('programs', tree.programs)):
        out += '' if text is None else ', ' + word
    return not errors, len(errors), out


def cut_line(named, t, n):
    return cut(named, t, n)[2]


# ---------------------------------------------------------------- sections by themselves

def namespaced_text(named):
    return '::'.join('%s %s' % (name, span_text(span)) for name, span in filter(None, named))


def setting_text(setting):
    form, *values = setting
    if form == 'name':
        return namespaced_text(values[0])
    if form == 'applied':
        return '%s(%s)' % tuple(map(namespaced_text, values))
    if form == 'array':
        return '[%s] %s %s' % (', '.join(map(setting_text, values[0])), span_text(values[1]), span_text(values[2]))
    text = quoted_debug(values[0]) if form == 'string' else str(values[0]).lower()
    return '%s %s' % (text, span_text(values[1]))


def value_text(value):
    kind, spans = kind_of(value)
    named = 'kind ' + kind if not spans else ' '.join(['InvalidEntry("yacckind")', *map(span_text, spans)])
    return setting_text(value) + '; ' + named


def kind_lines():
    """The value of each kind, whose locations are all the same."""
    origin = ' "From<YaccKind>"'
    values = [('Original(%s)' % it, 'original%s(yaccoriginalactionkind%s::%s%s)' % (origin, origin, it.lower(), origin))
              for it in ('UserAction', 'GenericParseTree', 'NoAction')]
    values += [(it, it.lower() + origin) for it in ('Grmtools', 'Eco')]
    return ['%s: yacckind%s::%s; kind %s' % (kind, origin, value, kind) for kind, value in values]


def refused_lines(errors):
    lines = [' '.join([header_kind_text(e), *map(span_text, e.spans), e.spans_kind()]) + ': ' + e.text() for e in errors]
    return [' ' + lines[0]] + ['    ' + line for line in lines[1:]]


def parsed_lines(t, required):
    """The result for the section at the start of t."""
    found, errors, end = section(t, required)
    return refused_lines(errors) if errors else [' ends at %d' % end] + [
        '    %s: %s' % (spanned_text(key, span), value_text(value)) for key, (span, value) in sorted(found.items())]


def section_lines(label, t):
    needed, free = parsed_lines(t, True), parsed_lines(t, False)
    if needed == free:
        return [label + ':' + needed[0]] + needed[1:]
    return [label + ', required:' + needed[0]] + needed[1:] + ['    not required:' + free[0]] + free[1:]


def entry_lines(t, p):
    try:
        ((key, span), value), end = entry(t, p)
    except HeaderFault as fault:
        return ['entry at %d:%s' % (p, *refused_lines([fault]))]
    return ['entry at %d: %s: %s, then %d' % (p, spanned_text(key, span), value_text(value), end)]


def primary_span(setting):
    """The span that is used for a value."""
    form, *values = setting
    return values[-1][-1][1] if form in ('name', 'applied') else values[1]


def plain_section_lines(t):
    """The results of calls on a section that don't allocate."""
    found, errors, _ = section(t, True)
    out = [WITHOUT_MEMORY] + ['    %s %s' % (short(e), e.spans_kind()) for e in errors]
    if errors:
        return out
    for key, (_, value) in sorted(found.items()):
        span = primary_span(value)
        kind, spans = kind_of(value)
        named = '' if key != 'yacckind' else '; no kind' if spans else '; kind ' + kind
        out.append('    %s Span(Span { start: %d, end: %d })%s' % (spanned_text(key, span), *span, named))
    return out


def section_results(row):
    t = row.text()
    out = ['text of %d bytes' % len(t)] + ['    |' + mark(line) for line in t.decode('utf-8').split('\n')]
    if row.show == 'without-memory':
        return out + plain_section_lines(t)
    if row.show == 'kinds':
        return out + kind_lines()
    if row.show not in ('cuts', 'entries'):
        return out + section_lines('section', t)
    for p in character_ends(t):
        out += section_lines('cut %d' % p, t[:p]) if row.show == 'cuts' else entry_lines(t, p)
    return out


# ---------------------------------------------------------------- all prefixes of each text of a file of rows

LONGEST = 4096


def cuts_of(t, least, most):
    """The cuts of a text with sizes in this range, as each kind. Kinds of one family are read alike."""
    cuts = {}
    for named in KINDS.values():
        how = named and family(named)
        if how not in cuts:
            cuts[how] = [cut(named, t, n) for n in character_ends(t) if least <= n <= most]
        yield from cuts[how]


def cuts_results(row):
    """The digest of the cuts of each text of the rows in a file, and how many of them are grammars."""
    requests = dict(row.requests)
    only, = requests.get('only', [None])
    least, most = map(int, requests.get('bytes', [0, sys.maxsize]))
    texts = [t for name, t in texts_of(row.text().decode('utf-8').split('\n'), row.directory)
             if (name == only if only else 0 < len(t) <= LONGEST)]
    cuts = [it for t in texts for it in cuts_of(t, least, most)]
    refused = [count for is_grammar, count, _ in cuts if not is_grammar]
    return digest_lines(row, [line for _, _, line in cuts]) + ['    grammars %d, lists of errors %d, empty ones %d' % (
        len(cuts) - len(refused), len(refused), refused.count(0))]


# ---------------------------------------------------------------- rows

def transcript(row):
    made = {'section': section_results, 'cuts': cuts_results}.get(row.type, results)
    out = ['== ' + row.name] + ['   ' + n for n in row.notes]
    return out + (digest_lines(row, made(row)) if row.show == 'digest' else made(row))


def character_ends(t):
    """The offsets of t at which a character begins or the text ends."""
    return [p for p in range(len(t) + 1) if p == len(t) or (t[p] & 0xC0) != 0x80]


def results(row):
    t, named = row.text(), KINDS[row.kind]
    kind, refused = named_kind(t) if named is None else (named, [])
    out = ['text of %d bytes, %s' % (len(t), kind or 'no kind')]
    if row.show != 'brief':
        out += ['    |' + mark(line) for line in t.decode('utf-8').split('\n')]
    if row.show == 'cuts':
        return out + [cut_line(named, t, n) for n in character_ends(t)]
    if kind is None:
        return out + ['errors'] + error_lines(t, refused)
    tree, errors = errors_of(family(kind), t)
    if row.show == 'accessors':
        return out + ([] if errors else accessor_lines(Grammar(tree)))
    if row.show == 'rendered':
        return out + rendered_lines(t, tree, errors)
    if row.show == 'without-memory':
        return out + plain_lines(kind, tree, errors)
    g, by_type = refusals(errors, tree)
    if row.show == 'brief':
        out += ['errors'] + error_lines(t, errors) if errors else ['errors: none']
        out.append('syntax of %d rules, %d productions, %d tokens, %d of them declared' % (
            len(tree.rules), len(tree.productions), len(tree.tokens), len(tree.declared)))
        out += tables_lines(t, errors, by_type, lambda: brief_lines(g))
    else:
        out += tree_lines(t, errors, tree)
        out += tables_lines(t, errors, by_type, lambda: grammar_lines(g))
        out += start_lines(t, errors, tree, row.requests)
    return out if g is None else out + request_lines(g, row.requests)


def printed(paths):
    """What is printed of the rows in these files, row by row."""
    for path in paths:
        for row in read_rows(path):
            yield '\n'.join(transcript(row)) + '\n'
