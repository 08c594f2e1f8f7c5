"""The settings of a `%grmtools` section, and the kind of file that it names: "The `%grmtools` section", "The kind that a file names"."""
import re

from .faults import HeaderFault

HINT = 'perhaps this is a glob, in which case it requires string quoting.'
MOST_BRACKETS = 127
GREATEST = 18446744073709551615

# U+0009 to U+000D, U+0020, U+0085, U+200E, U+200F, U+2028, U+2029
WHITE = rb'[\x09-\x0d\x20]|\xc2\x85|\xe2\x80[\x8e\x8f\xa8\xa9]'
WHITE_SPACE = re.compile(rb'(?:%s)*' % WHITE)
SEPARATORS = re.compile(rb'(?:,|%s)*' % WHITE)
NAME = re.compile(rb'[a-zA-Z][a-zA-Z_]*')
NUMBER = re.compile(rb'[0-9]+')
STRING = re.compile(rb'"((?:[^"\\]|\\[^\n])*)"', re.S)


def white(t, p):
    return WHITE_SPACE.match(t, p).end()


def expect(t, p, character):
    if not t.startswith(character.encode(), p):
        raise HeaderFault('ExpectedToken', [(p, p)], (character,))
    return p + 1


def name(t, p):
    """The name at p in lower case with its span, and the offset after it."""
    m = NAME.match(t, p)
    if m is None and t.startswith(b'*', p):
        raise HeaderFault('UnexpectedToken', [(p, p)], ('*', HINT))
    if m is None:
        raise HeaderFault('IllegalName', [(p, p)])
    return (m.group().decode().lower(), m.span()), m.end()


# ---------------------------------------------------------------- settings: the form, its values, and its spans

def namespaced(t, p):
    """(namespace or None, member), and the offset after them and their white space."""
    first, p = name(t, p)
    p = white(t, p)
    if not t.startswith(b'::', p):
        return (None, first), p
    member, p = name(t, white(t, p + 2))
    return (first, member), white(t, p)


def applied(t, p):
    outer, p = namespaced(t, p)
    if not t.startswith(b'(', p):
        return ('name', outer), p
    inner, p = namespaced(t, p + 1)
    return ('applied', outer, inner), expect(t, p, ')')


def number(t, p):
    m = NUMBER.match(t, p)
    if int(m.group()) > GREATEST:
        raise HeaderFault('InvalidEntry', [m.span()], ('number',))
    return ('number', int(m.group()), m.span()), m.end()


def string(t, p):
    m = STRING.match(t, p)
    if m is None:
        raise HeaderFault('IllegalName', [(p, p)])
    return ('string', m.group(1).decode(), m.span(1)), m.end()


def array(t, p, brackets):
    if brackets == MOST_BRACKETS:
        raise HeaderFault('InvalidEntry', [(p, p + 1)], ('nesting',))
    items, opening, p = [], (p, p + 1), SEPARATORS.match(t, p + 1).end()
    while p < len(t) and not t.startswith(b']', p):
        item, p = setting(t, p, brackets + 1)
        items.append(item)
        p = SEPARATORS.match(t, p).end()
    return ('array', items, opening, (p, p + 1)), expect(t, p, ']')


def setting(t, p, brackets):
    if NUMBER.match(t, p):
        return number(t, p)
    if t.startswith(b'"', p):
        return string(t, p)
    if t.startswith(b'[', p):
        return array(t, p, brackets)
    return applied(t, p)


# ---------------------------------------------------------------- entries

def entry(t, p):
    """The key with its span, the value, and the offset after them and their white space."""
    if t.startswith(b'!', p):
        key, end = name(t, p + 1)
        return (key, ('flag', False, (p, end))), white(t, end)
    key, end = name(t, p)
    p = white(t, end)
    if not t.startswith(b':', p):
        return (key, ('flag', True, key[1])), p
    value, p = setting(t, white(t, p + 1), 0)
    return (key, value), white(t, p)


def entries(t, opening, found):
    """Reads from the brace at opening on, adds each entry to what was found, and returns where the section ends."""
    p = white(t, expect(t, opening, '{'))
    while p < len(t) and not t.startswith(b'}', p):
        one, p = entry(t, p)
        found.append(one)
        if not t.startswith(b',', p):
            break
        p = white(t, p + 1)
    if t.startswith(b'*', p):
        raise HeaderFault('UnexpectedToken', [(p, p + 1)], ('*', HINT))
    if not t.startswith(b'}', p):
        raise HeaderFault('ExpectedToken', [(opening, p)], ('}',))
    return p + 1


def duplicates(found):
    spans, repeated = {}, []
    for (key, span), _ in found:
        spans.setdefault(key, []).append(span)
        if len(spans[key]) == 2:
            repeated.append(key)
    return [HeaderFault('DuplicateEntry', spans[key]) for key in repeated]


def section(t, required):
    """The value of each key with the span of the key, the errors, and where the section ends."""
    found, p = [], white(t, 0)
    if not t.startswith(b'%grmtools', p):
        return {}, [HeaderFault('MissingGrmtoolsSection', [(0, 0)])] if required else [], 0
    stop, end = [], None
    try:
        end = entries(t, white(t, p + len('%grmtools')), found)
    except HeaderFault as fault:
        stop = [fault]
    return {key: (span, value) for (key, span), value in found}, duplicates(found) + stop, end


# ---------------------------------------------------------------- the kind that a text names

ACTIONS = {'noaction': 'NoAction', 'useraction': 'UserAction', 'genericparsetree': 'GenericParseTree'}
PLAIN = {'grmtools': 'Grmtools', 'eco': 'Eco'}


def wrong(named, namespace, members):
    """The spans of what is wrong with a name: its namespace, and then itself."""
    (outer, (member, span)) = named
    spans = [outer[1]] if outer is not None and outer[0] != namespace else []
    return spans if member in members else spans + [span]


def kind_of(value):
    """The kind that a value names, and the spans of what is wrong with it."""
    if value[0] == 'name':
        return PLAIN.get(value[1][1][0]), wrong(value[1], 'yacckind', PLAIN)
    if value[0] == 'applied':
        spans = wrong(value[1], 'yacckind', ['original']) + wrong(value[2], 'yaccoriginalactionkind', ACTIONS)
        return 'Original(%s)' % ACTIONS.get(value[2][1][0]), spans
    return None, [value[2]]


def named_kind(t):
    """The kind that the text names, or None with the errors because of which it names none."""
    values, errors, _ = section(t, True)
    if errors:
        return None, errors
    kind, spans = kind_of(values['yacckind'][1]) if 'yacckind' in values else (None, [(0, 0)])
    return (None, [HeaderFault('InvalidEntry', spans, ('yacckind',))]) if spans else (kind, [])
